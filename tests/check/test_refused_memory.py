"""gtp_check is refused each of its requests for memory in turn."""
from __future__ import annotations

from pathlib import Path

import pytest

from tests.shared.refused_memory import CLAP, Refuser, Run, hostile, usage_error

SIZES = " ".join(map(str, range(5, 26)))
# The engine refuses its name and each size: 5 questions, and in each of three parts the sizes 5 to
# 25, and 5 again.
NOTHING_FOUND = f"""\
check: "", version "", seed 1, simple ko
check: not asked, as the options say: start placed errors sizes ko captures suicide joining \
handicaps komi drawn genmoves games restarts
check: record: no play and no genmove was answered rightly on any board of it
check: it refuses the sizes {SIZES}
check: 71 commands, 1 start, 0 complaints
"""
# The engine ends at once, three times, and a lesson is over after three losses.
COMPLAINTS = "".join(
    f"""\
# {number} komi: "1 name": its output ended, exit status 1
1 name
# it wrote: ""
# right: an engine answers each command, and reads on until quit

"""
    for number in (1, 2, 3)
)
FOUND = f"""\
check: an engine without a name, version unknown, seed 1, simple ko
{COMPLAINTS}\
check: not asked, as the options say: start placed errors sizes ko captures suicide joining \
handicaps drawn record genmoves games restarts
check: komi: no play and no genmove was answered rightly on any board of it
check: 3 commands, 3 starts, 3 complaints
"""
RUNS = [
    Run(
        "a check in which nothing is found and no move is asked",
        ["gtp_check", "--only", "record", hostile("-", r"?<id>_no\n\n")],
        4,
        NOTHING_FOUND,
    ),
    Run(
        "a check in which something is found",
        ["gtp_check", "--only", "komi", "--singly", hostile("*/0//ends:1")],
        1,
        FOUND,
    ),
    usage_error("a check without an engine", "gtp_check", "gtp_check: no command of an engine\n"),
    usage_error(
        "a check on a board that is too small",
        "gtp_check --size 4 x",
        f"error: invalid value '4' for '--size <N>': 4 is not in 5..=25{CLAP}",
    ),
    Run("the version", ["gtp_check", "--version"], 0, "gtp_check 1.0\n"),
]


@pytest.mark.cc
@pytest.mark.parametrize("refused", RUNS, ids=lambda run: run.name)
def test_refused_memory(refused: Run, refuser: Refuser, gtp_check: Path) -> None:
    refuser.check(refused)
