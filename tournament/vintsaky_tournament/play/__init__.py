"""How games are played: the run, the process of a game, the trials of engines."""
