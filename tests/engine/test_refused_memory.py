"""gtp_engine is refused each of its requests for memory in turn."""
from __future__ import annotations

from pathlib import Path

import pytest

from tests.shared.refused_memory import CLAP, Refuser, Run, usage_error

REPLIES = """\
=

= C3

= pass

= resign

= resign

? syntax error

? illegal move

"""
RUNS = [
    Run(
        "a conversation with a book",
        ["gtp_engine", "--policy", "book", "--book", "C3,,resign"],
        0,
        REPLIES,
        text="boardsize 9\ngenmove b\ngenmove w\ngenmove b\ngenmove b\ngenmove\nplay b C3\n",
    ),
    usage_error(
        "a policy that there is not",
        "gtp_engine --policy best",
        "error: invalid value 'best' for '--policy <POLICY>'\n"
        f"  [possible values: first, random, book]{CLAP}",
    ),
    usage_error(
        "a book that is none", "gtp_engine --policy book --book C3,x", "gtp_engine: bad book\n"
    ),
    Run("the version", ["gtp_engine", "--version"], 0, "gtp_engine 1.0\n"),
]


@pytest.mark.cc
@pytest.mark.parametrize("refused", RUNS, ids=lambda row: row.name)
def test_refused_memory(refused: Run, refuser: Refuser, gtp_engine: Path) -> None:
    refuser.check(refused)
