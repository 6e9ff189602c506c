"""twogtp is refused each of its requests for memory in turn."""
from __future__ import annotations

from pathlib import Path

import pytest

from tests.shared.refused_memory import CLAP, Refuser, Run, hostile, usage_error

ENGINE = "gtp_engine"
FIRST = f"{ENGINE} --policy first"
WALL = f"{ENGINE} --policy book --book B1,,B2,,B3"
# White refuses Black's seventh move, which makes the board again that stood after the first.
REFUSED = (
    'twogtp: game 1: white: 1 unanswered, "{0} play b A1": the play was refused{1}; '
    'it wrote "?{0} illegal move\\n\\n"\n'
)
RETAKES = [(10, " (retake 1 of 3)"), (11, " (retake 2 of 3)"), (12, " (retake 3 of 3)"), (13, "")]
NOT_THERE = 'twogtp: game 1: black: not started: no such file: "./no_such_engine"\n'


def match(black: str, white: str, options: str) -> list[str]:
    """Returns the command of a match."""
    return ["twogtp", "--black", black, "--white", white, *options.split()]


RUNS = [
    Run(
        "one game on the smallest board",
        match(FIRST, FIRST, "--size 1 --komi 6.5"),
        0,
        "game 1: W+6.5 moves 2 restarts 0 0\n",
    ),
    Run(
        "two games on the smallest board",
        match(FIRST, FIRST, "--size 1 --komi 6.5 --games 2"),
        0,
        "game 1: W+6.5 moves 2 restarts 0 0\ngame 2: W+6.5 moves 2 restarts 0 0\n",
    ),
    Run(
        "a program that is given up and started again",
        match(f"{WALL} --fault stop:2", WALL, "--size 3 --komi 0.5 --restarts 3 --record"),
        0,
        "game 1: B+8.5 moves 7 restarts 3 0\nB1 pass B2 pass B3 pass pass\n",
    ),
    Run(
        "a game in which a move is refused, with --why",
        match(FIRST, f"{FIRST} --ko positional", "--size 2 --komi 0 --max-moves 10 --why"),
        0,
        "game 1: B+F(refused play) moves 7 restarts 0 0\n",
        "".join(REFUSED.format(*retake) for retake in RETAKES),
    ),
    Run(
        "a game in which a program is not there, with --why",
        match("./no_such_engine", ENGINE, "--restarts 1 --why"),
        1,
        "game 1: abandoned black moves 0 restarts 1 0\n",
        2 * NOT_THERE,
    ),
    # Black's doesn't end by itself. White's is asked for once Black's runs.
    Run(
        "a game with a program that has to be killed",
        match(hostile(r"*/0/Welcome_to_Go\n/on"), "./no_such_engine", "--restarts 0"),
        1,
        "game 1: abandoned white moves 0 restarts 0 0\n",
    ),
    usage_error(
        "a size that is none",
        "twogtp --black x --white y --size 99",
        f"error: invalid value '99' for '--size <N>': 99 is not in 1..=25{CLAP}",
    ),
    usage_error(
        "a komi without a value",
        "twogtp --komi",
        f"error: a value is required for '--komi <K>' but none was supplied{CLAP}",
    ),
    usage_error(
        "a komi that is none", "twogtp --black x --white y --komi 6.7", "twogtp: bad komi\n"
    ),
    usage_error(
        "a handicap that the size doesn't allow, with --why",
        "twogtp --black x --white y --size 6 --handicap 2 --why",
        "twogtp: bad handicap\ntwogtp: on size 6 the handicap may only be 0\n",
    ),
    Run("the version", ["twogtp", "--version"], 0, "twogtp 1.0\n"),
]


@pytest.mark.cc
@pytest.mark.parametrize("refused", RUNS, ids=lambda row: row.name)
def test_refused_memory(refused: Run, refuser: Refuser, twogtp: Path, gtp_engine: Path) -> None:
    refuser.check(refused)
