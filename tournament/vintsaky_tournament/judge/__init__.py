"""What judges games that were played: a replay of each by an engine."""
