"""What a search asks of a game, and playouts, in plain Python. See tests/README.md."""
