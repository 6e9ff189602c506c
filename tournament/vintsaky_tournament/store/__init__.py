"""The files of a tournament: results, notes, and where they lie."""
