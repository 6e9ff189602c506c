"""The configuration of a tournament: the arguments, the plan and its file, the openings."""
