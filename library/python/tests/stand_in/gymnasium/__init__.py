"""A stand-in for gymnasium, which checks an environment of many games."""
