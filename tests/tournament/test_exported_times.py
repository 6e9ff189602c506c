"""The times of moves and the clock, as tournament export has them."""
from __future__ import annotations

import re
from typing import Dict, List, NamedTuple, Sequence

import pytest

from .runner import Runner
from .written import write_plan, write_result

GAME = "1_a_b"


def exported(
    runner: Runner, lines: Sequence[str], notes: Sequence[str], moves: str = "D4 E5 D5"
) -> str:
    """Returns a game in SGF, of a plan with these lines, whose notes are these."""
    folder = runner.folder / "all"
    write_plan(folder, "ab", 1, "option --size=9", "option --komi=-7.50", *lines)
    result = f"B+R moves {len(moves.split())} restarts 0 0"
    write_result(folder, GAME, result, moves)
    (folder / "notes").mkdir()
    text = [f"{GAME} on far", *notes, "thought: ..", f"result: {result}", ""]
    (folder / "notes" / GAME).write_text("\n".join(text), encoding="latin-1")
    assert runner.tournament("export", "all", "--sgf", "records").status == 0
    return runner.files("records")[f"{GAME}.sgf"]


def nodes_of(record: str) -> List[str]:
    """Returns the nodes of the moves of a record."""
    _, _, moves = record.rstrip(")\n").partition("C[B+R]\n;")
    return moves.split(";")


class Timed(NamedTuple):
    """The lines of a plan's clock, the seconds of Black's moves as the notes have them, and what
    the clock has left behind each."""

    lines: List[str]
    seconds: List[str]
    left: List[str]


CLOCKS = {
    "absolute": Timed(["clock absolute 10"], ["3.5", "0.125"], ["BL[6.5]", "BL[6.375]"]),
    "a margin": Timed(["clock absolute 10", "margin 0.5"], ["3.5", "0.125"], ["BL[7]", "BL[7]"]),
    # four seconds of the main time, then its six and one of the first period, then five and one
    # of the second
    "byoyomi": Timed(
        ["clock byoyomi 10 5 3"],
        ["4.0", "7.0", "6.0"],
        ["BL[6]", "BL[5]OB[3]", "BL[5]OB[2]"],
    ),
    # the third move of the period ends it
    "canadian": Timed(
        ["clock canadian 10 20 3"],
        ["12.0", "5.0", "3.0", "0.5"],
        ["BL[18]OB[2]", "BL[13]OB[1]", "BL[20]OB[3]", "BL[19.5]OB[2]"],
    ),
    "fischer": Timed(["clock fischer 10 2"], ["3.5", "0.25"], ["BL[8.5]", "BL[10.25]"]),
    "no clock": Timed([], ["3.5"], [""]),
}


@pytest.mark.parametrize("timed", CLOCKS.values(), ids=CLOCKS)
def test_time_that_is_left(timed: Timed, runner: Runner) -> None:
    notes = ["0 black started 0.5"]
    for number, seconds in enumerate(timed.seconds):
        notes += [f"{2 * number + 1} black D{number + 1} {seconds} cpu 0.10"]
        notes += [f"{2 * number + 2} white E{number + 1} 0.001"]
    moves = " ".join(f"D{number + 1} E{number + 1}" for number in range(len(timed.seconds)))
    black = nodes_of(exported(runner, timed.lines, notes, moves))[::2]
    assert [re.sub(r"^B\[\w+\]", "", node) for node in black] == [
        f"{left}C[{seconds} s, cpu 0.10 s]" for left, seconds in zip(timed.left, timed.seconds)
    ]


def test_what_else_a_clock_counts(runner: Runner) -> None:
    notes = [
        "1 black D4 opening",
        "2 white E5 1.5",
        "3 black thinks",
        "3 black ended 2.0: 12 genmove b: signal 11",
        "0 black started 0.5",
        "3 black A1 1.0",
        "3 black undone",
        "3 black D5 0.5",
        "4 white J9 0.5",  # an illegal move, which isn't in the record
    ]
    nodes = nodes_of(exported(runner, ["clock absolute 10"], notes))
    assert nodes == ["B[df]", "W[ee]WL[8.5]C[1.5 s]", "B[de]BL[6.5]C[0.5 s]"]


@pytest.mark.parametrize(
    "notes",
    [
        pytest.param(["1 black D4 0.5", "2 white E6 0.5", "3 black D5 0.5"], id="other moves"),
        pytest.param(["1 black D4 0.5", "2 white E5 0.5"], id="fewer moves"),
        pytest.param(["1 black D4 0.5", "2 white \u00b2 \u00b2"], id="what is no number"),
    ],
)
def test_notes_of_other_moves_have_no_times(notes: List[str], runner: Runner) -> None:
    nodes = nodes_of(exported(runner, ["clock absolute 10"], notes))
    assert nodes == ["B[df]", "W[ee]", "B[de]"]


def test_clock_in_sgf(runner: Runner) -> None:
    record = exported(runner, ["clock canadian 600.5 300 25", "move-limit 30"], [])
    assert "]KM[-7.5]TM[600.5]OT[25/300 Canadian]PB[" in record
    assert "\nLimit of a move: 30 s]" in record


# a clock, its overtime in SGF, and what PGN has of it
FORMS = {
    "absolute 600": ("", "600"),
    "byoyomi 600 30 5": ("OT[5x30 byo-yomi]", ""),
    "fischer 600 5": ("OT[5 fischer]", "600+5"),
}


@pytest.mark.parametrize("clock", FORMS)
def test_forms_of_a_clock(clock: str, runner: Runner) -> None:
    record = exported(runner, [f"clock {clock}"], [])
    overtime, time_control = FORMS[clock]
    assert f"TM[600]{overtime}PB[" in record
    games = runner.tournament("export", "all", "--pgn").output
    tags: Dict[str, str] = dict(re.findall(r'^\[(\w+) "(.*)"\]$', games, re.MULTILINE))
    assert (tags["Clock"], tags.get("TimeControl", "")) == (clock, time_control)
