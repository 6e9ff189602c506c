"""The page of a tournament: one HTML file with its style and its script, which needs no network."""
