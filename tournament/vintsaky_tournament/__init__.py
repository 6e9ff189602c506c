"""The parts of `tournament`, `tally`, `between` and `patience`: Python 3.9, its library alone.

model       what a tournament is made of: plan, engines, games, results, outcomes
config      the arguments, the file of a plan, changes of a plan, openings
store       the files of a tournament: results, notes, versions, their places and locks
play        the run, the process of a game, the trials of engines
relay       what is started with each engine: it imports `processes` alone
judge       a replay of each game by an engine, and what it says of the result
stats       what results say: endings, pairs, scores, a test, a summary, records
report      what is printed of that: text, JSON, tables, PGN, SGF; and the page for browsers
cluster     the share of a task, and the time that a job has left
cli         a module for each command
processes   how a program is started, and how all processes below are ended
output      how texts are written, and the errors that are reported
"""

VERSION = "1.0"  # that of the programs
