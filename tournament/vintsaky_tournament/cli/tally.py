"""The command `tally`."""
from __future__ import annotations

import gc
from typing import Sequence

from .. import VERSION, output
from ..config.arguments import Arguments
from ..config.plan_file import read_plan
from ..model import Plan
from ..output import Mistake
from ..stats.summary import Counts, Summary
from .losses import rules_of
from .sprt import asked_of

STATUSES = {1: 0, 0: 3, None: 4}  # of a test, by the difference in Elo that is accepted


def is_left_out(name: str, value: str) -> bool:
    """Returns whether games that nobody won are to be left out, by the value of an option."""
    if value not in ("half", "out"):
        raise Mistake(f"{name} needs half or out after it, and not '{value}'")
    return value == "out"


def part_name(name: str, value: str) -> str:
    """Returns by what games are to be counted."""
    from ..stats.breakdown import PARTS  # which isn't needed elsewhere

    if value not in PARTS:
        raise Mistake(f"{name} needs {', '.join(PARTS)} after it, and not '{value}'")
    return value


def needs_times(name: str | None, plan: Plan) -> bool:
    """Returns whether the games of a plan are to be counted by the time of moves."""
    if name == "time" and plan.is_direct:
        raise Mistake("--by time is for games with notes, which those of --direct haven't")
    return name == "time"


def main(words: Sequence[str]) -> int:
    """Writes the tally of a folder, and returns the status."""
    if words and words[0] in ("-V", "--version"):
        output.write(output.STDOUT, f"tally {VERSION}\n")
        return 0
    arguments = Arguments("tally", words)
    if arguments.is_help:
        from ..config.help import HELP

        output.write(output.STDOUT, HELP["tally"])
        return 0
    gc.disable()  # nothing here has cycles, and with many engines the search takes half the time
    (folder,) = arguments.places
    plan = read_plan(folder)
    asked, leave_out = asked_of(arguments, plan), arguments.last("--no-winner", is_left_out)
    by = arguments.last("--by", part_name)
    has_times = needs_times(by, plan)
    counts = Counts(plan, folder, rules_of(arguments, plan), bool(leave_out), has_times)
    test = counts.test(asked) if asked else None
    if arguments.has("--json"):
        from ..report.as_json import json_of

        output.write(output.STDOUT, json_of(Summary(counts), test))
    elif by:
        from ..report.parts import lines

        output.write_lines(output.STDOUT, lines(counts, by))
    elif test:
        from ..report.text import line_of_test

        output.write(output.STDOUT, f"{line_of_test(test)}\n")
    else:
        from ..report.text import Table

        output.write_lines(output.STDOUT, Table(Summary(counts)).lines())
    if test:
        return STATUSES[test.decision]
    return 0 if counts.have == counts.games.count else 1
