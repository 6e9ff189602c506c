"""The options, statuses and standard error of gtp_engine, and a conversation with each.

All was worked out by hand from docs/protocol.md and docs/engine.md.
"""
from __future__ import annotations

import os
import re
from dataclasses import dataclass
from pathlib import Path
from subprocess import CompletedProcess
from typing import Sequence, Union

import pytest

from tests.shared.processes import run
from tests.shared.usage import check_help, check_usage_error

Option = Union[str, bytes]


@dataclass(frozen=True)
class Conversation:
    """What an engine with these options reads and writes, and its status."""

    name: str
    text: str
    options: Sequence[Option]
    status: int
    output: str
    errors: str = ""


GENMOVES = "genmove b\ngenmove w\nname\n"
BAD_BOOK = ["--book", "C3,D44"]
BAD_BOOK_REPORTED = (2, "", "gtp_engine: bad book\n")
CONVERSATIONS = [
    Conversation(
        "quit ends it with status 0", "1 protocol_version\n2 quit\n", [], 0, "=1 2\n\n=2\n\n"
    ),
    Conversation(
        "the end of the input ends it with status 0", "name\nversion", [], 0, "= stepgo\n\n"
    ),
    Conversation(
        "a bad book is reported under every policy", "name\n", BAD_BOOK, *BAD_BOOK_REPORTED
    ),
    Conversation(
        "a bad book is reported before a bad fault, under each rule of ko",
        "name\n",
        ["--ko", "positional", *BAD_BOOK, "--fault", "stop:0"],
        *BAD_BOOK_REPORTED,
    ),
    Conversation(
        "a bad book is reported before a bad fault",
        "name\n",
        [*BAD_BOOK, "--fault", "stop:0"],
        *BAD_BOOK_REPORTED,
    ),
    Conversation(
        "an argument that is no text is reported",
        "name\n",
        ["--book", b"\xff"],
        2,
        "",
        "gtp_engine: bad argument\n",
    ),
    Conversation("--version", "name\n", ["--version"], 0, "gtp_engine 1.0\n"),
    Conversation(
        "--fault stop ends it with status 4 before the reply",
        GENMOVES,
        ["--fault", "stop:2"],
        4,
        "= A1\n\n",
    ),
    Conversation(
        "--fault cut ends it with status 4 in the reply", GENMOVES, ["--fault", "cut:1:3"], 4, "= A"
    ),
    Conversation(
        "--fault junk is written in place of a reply",
        GENMOVES,
        ["--fault", "junk:1"],
        0,
        "hello\n\n= B1\n\n= stepgo\n\n",
    ),
    Conversation(
        "--fault flood is 8,193 newlines in place of a reply",
        "genmove b\nname\n",
        ["--fault", "flood:1"],
        0,
        8193 * "\n" + "= stepgo\n\n",
    ),
    Conversation(
        "a bad fault is reported", "name\n", ["--fault", "stop:0"], 2, "", "gtp_engine: bad fault\n"
    ),
]

# Under simple ko White may not take back at once; a whole round later it may. Under positional ko
# the board may not come again.
ROUND = """\
boardsize 2
play b A1
play b A2
play w B1
play w B2
play b A1
1 play b A2
"""
RANDOM_MOVES = "boardsize 9\n" + 30 * "genmove b\ngenmove w\n"


def converse(engine: Path, text: str, *options: Option) -> CompletedProcess[str]:
    """Returns the result of an engine with these options that reads this text."""
    return run([engine, *options], text)


@pytest.mark.parametrize("row", CONVERSATIONS, ids=lambda row: row.name)
def test_conversation(gtp_engine: Path, row: Conversation) -> None:
    done = converse(gtp_engine, row.text, *row.options)
    assert (done.returncode, done.stdout, done.stderr) == (row.status, row.output, row.errors)


@pytest.mark.parametrize(
    "options",
    [
        ["--policy", "third"],
        ["--ko", "super"],
        ["--ko", "Positional"],
        ["--ko", ""],
        ["--ko", "super", *BAD_BOOK, "--fault", "stop:0"],
    ],
    ids=" ".join,
)
def test_unknown_value_is_a_usage_error(gtp_engine: Path, options: list[str]) -> None:
    check_usage_error(converse(gtp_engine, "name\n", *options))


@pytest.mark.parametrize(
    "options, reply",
    [([], "=1"), (["--ko", "simple"], "=1"), (["--ko", "positional"], "?1 illegal move")],
    ids=["default", "simple", "positional"],
)
def test_board_may_come_again_under_simple_ko_only(
    gtp_engine: Path, options: list[str], reply: str
) -> None:
    done = converse(gtp_engine, ROUND, *options)
    assert re.findall("^[=?]1.*", done.stdout, re.MULTILINE) == [reply]


def test_help_names_the_rule_of_ko(gtp_engine: Path) -> None:
    done = converse(gtp_engine, "name\n", "--help")
    assert (done.returncode, done.stderr) == (0, "")
    assert len(re.findall(r"^ +--ko(?: |$)", done.stdout, re.MULTILINE)) == 1


def test_help_says_which_options_go_together(gtp_engine: Path) -> None:
    check_help(converse(gtp_engine, "", "--help"), "--policy random", "--policy book")


def test_input_that_cannot_be_read_is_status_3(gtp_engine: Path) -> None:
    directory = os.open("/", os.O_RDONLY)
    try:
        done = run([gtp_engine], stdin=directory)
    finally:
        os.close(directory)
    assert (done.returncode, done.stderr) == (3, "gtp_engine: read fault\n")


def test_output_that_is_full_is_status_3(gtp_engine: Path) -> None:
    with open("/dev/full", "w") as full:
        done = run([gtp_engine], "name\n", stdout=full)
    assert (done.returncode, done.stderr) == (3, "gtp_engine: write fault\n")


def test_seed_gives_the_random_moves(gtp_engine: Path) -> None:
    first, again, other = (
        converse(gtp_engine, RANDOM_MOVES, "--policy", "random", "--seed", seed).stdout
        for seed in ("7", "7", "8")
    )
    assert first.count("\n\n") == 61
    assert first == again
    assert first != other
