"""The commands: their main functions, and what they share."""
