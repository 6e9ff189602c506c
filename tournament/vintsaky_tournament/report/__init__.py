"""What is printed of results: text, JSON, CSV, PGN and SGF."""
