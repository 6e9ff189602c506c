"""A plain, slow reference of gtp_engine, and what it is compared by. See tests/README.md."""
