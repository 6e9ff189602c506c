"""Openings in SGF: what a plan has of them, and what is refused."""
from __future__ import annotations

from typing import List

import pytest

from .inside import module
from .runner import TWO, Runner

NINE = ["--", "--size", "9"]


def openings_of(runner: Runner) -> List[str]:
    """Returns the openings of the plan in `all`."""
    openings: List[str] = module("config.plan_file").read_plan(str(runner.folder / "all")).openings
    return openings


BOOK = """\
(;GM[1]SZ[9];B[dd];W[ee](;B[];W[cg])(;B[aa]))
(;SZ[9]
;B[ai]N[the corner])
"""
HANDICAP_BOOK = "(;SZ[9]HA[2]AB[cg:cg][gc];W[ee]C[AB\\[aa\\]];B[gg])"  # C3 and G7


def test_each_game_tree_is_an_opening(runner: Runner) -> None:
    runner.write("book.sgf", BOOK)
    assert runner.tournament("plan", "all", *TWO, "--openings", "book.sgf", *NINE) == (0, "", "")
    assert openings_of(runner) == ["D6 E5 pass C3", "A1"]


def test_directory_of_records(runner: Runner) -> None:
    (runner.folder / "book").mkdir()
    (runner.folder / "book/folder").mkdir()
    games = {"b.sgf": "dd", "a.SGF": "ee", "B.sgf": "ff", ".c.sgf": "gg", "a.sgf~": "hh"}
    for name, point in games.items():
        runner.write(f"book/{name}", f"(;SZ[9];B[{point}])")
    assert runner.tournament("plan", "all", *TWO, "--openings=book", *NINE) == (0, "", "")
    assert openings_of(runner) == ["F4", "E5", "D6"]  # by the names B.sgf, a.SGF, b.sgf


def test_record_with_the_stones_of_the_handicap(runner: Runner) -> None:
    runner.write("book.sgf", HANDICAP_BOOK)
    options = ["--openings", "book.sgf", "--seeds", "1", *NINE, "--handicap", "2"]
    assert runner.tournament("play", "all", *TWO, *options)[::2] == (0, "")
    assert openings_of(runner) == ["E5 G3"]
    assert all(text.splitlines()[1].startswith("E5 G3 ") for text in runner.games().values())


SETS_UP = (
    "sets stones up, and an opening has only moves, behind those of a handicap as AB in its first"
    " node"
)
OF_TWO = "those of --handicap 2, C3 G7"
RECORDS = {
    "no record": ("D4", "line 1, column 1 of book.sgf: there is no game: one begins by (;", ""),
    "another game": (
        "(;GM[2];B[dd])",
        "line 1, column 5 of book.sgf: this is no game of Go, which has GM[1]",
        "",
    ),
    "another size": (
        "(;SZ[9];B[dd])\n (;SZ[13];B[dd])",
        "line 2, column 3 of book.sgf: its board is 13x13, and that of the plan 9x9",
        "",
    ),
    "no size": (
        "(;B[dd])",
        "line 1, column 2 of book.sgf: its board is 19x19, and that of the plan 9x9",
        "",
    ),
    "no move": (
        "(;SZ[9]\n;C[Black may play anywhere])",
        "line 1, column 2 of book.sgf: the game that begins here has no move",
        "",
    ),
    "stones": (
        "(;SZ[9]\nAB[dd];B[ee])",
        "line 2, column 3 of book.sgf: stones are set up, and the plan has no --handicap",
        "",
    ),
    "white stones": (
        "(;SZ[9]AB[cg][gc]\n AW[aa];W[ee])",
        f"line 2, column 4 of book.sgf: AW {SETS_UP}",
        "2",
    ),
    "stones behind a move": (
        "(;SZ[9];B[ee]\n;AB[cg])",
        f"line 2, column 4 of book.sgf: AB {SETS_UP}",
        "",
    ),
    "stones that are removed": (
        "(;SZ[9];B[ee];W[dd];AE[ee])",
        f"line 1, column 23 of book.sgf: AE {SETS_UP}",
        "",
    ),
    "other stones than those of the handicap": (
        "(;SZ[9]AB[cg][gg];W[ee])",
        f"line 1, column 10 of book.sgf: the stones that are set up aren't {OF_TWO}",
        "2",
    ),
    "more stones than those of the handicap": (
        "(;SZ[9]AB[cg][gc][gg];W[ee])",
        f"line 1, column 10 of book.sgf: the stones that are set up aren't {OF_TWO}",
        "2",
    ),
    "no stones of the handicap": (
        "(;SZ[9];W[ee])",
        f"line 1, column 2 of book.sgf: AB is missing, with {OF_TWO}",
        "2",
    ),
    "one colour twice": (
        "(;SZ[9];B[ee];B[dd])",
        "line 1, column 16 of book.sgf: Black moves twice in a row: write a pass between both,"
        " ;W[]",
        "",
    ),
    "White first": (
        "(;SZ[9];W[ee])",
        "line 1, column 10 of book.sgf: Black moves first, and not White",
        "",
    ),
    "an occupied point": (
        "(;SZ[9];B[ee]\n;W[ee])",
        "line 2, column 3 of book.sgf: move 2, White E5: the point is occupied",
        "",
    ),
}


@pytest.mark.parametrize("text, said, handicap", RECORDS.values(), ids=RECORDS)
def test_record_that_is_refused(text: str, said: str, handicap: str, runner: Runner) -> None:
    runner.write("book.sgf", text)
    options = ["--openings", "book.sgf", *NINE, *(["--handicap", handicap] if handicap else [])]
    assert runner.tournament("plan", "all", *TWO, *options) == (2, "", f"tournament: {said}\n")
    assert not (runner.folder / "all").exists()


def test_directory_without_records(runner: Runner) -> None:
    (runner.folder / "book").mkdir()
    said = "tournament: book has no file whose name ends with .sgf\n"
    done = runner.tournament("plan", "all", *TWO, "--openings", "book", *NINE)
    assert done == (2, "", said)
    (runner.folder / "book/a.sgf").mkdir()
    said = "tournament: book/a.sgf can't be read: Is a directory\n"
    assert runner.tournament("plan", "all", *TWO, "--openings", "book") == (2, "", said)
