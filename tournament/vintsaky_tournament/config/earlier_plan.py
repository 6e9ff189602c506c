"""The file of a plan as earlier scripts wrote it: it is read, and written no more.

It has a line each: `folder FOLDER`, in which engines start, `engine NAME COMMAND`, `option WORD`,
`seeds N`, `limit SECONDS`. For `between` it has `start-limit SECONDS`, `move-limit SECONDS`, `clock
CLOCK`, `margin SECONDS` and `opening MOVE ..`, or `direct` where that is left out. With `gauntlet
NAME` this engine plays each other one, and no others play. `scorer COMMAND` names the engine that
finds dead stones. A plan without `folder` is an old one: its engines start in the working
directory, and directly; it has none of the lines for `between`.

A line that begins with # is a comment.
"""
from __future__ import annotations

import os
from typing import Iterator

from ..model import Plan
from ..output import Mistake
from .values import clock, is_opening, number, seconds

LIMITS_OF_ANSWERS = ("move-limit", "start-limit", "clock", "margin")
ONCE = ("folder", "gauntlet", "direct", *LIMITS_OF_ANSWERS, "scorer", "seeds", "limit")
FOR_BETWEEN = ("direct", *LIMITS_OF_ANSWERS, "opening")
LISTS = {"option": "twogtp", "opening": "openings"}  # a line is a value, and the key of all


def is_comment(line: str) -> bool:
    """Returns whether a line says nothing."""
    return not line or line.startswith("#")


def add_line(plan: Plan, line: str) -> None:
    """Adds a line of the file to a plan. Raises Mistake where it isn't understood."""
    kind, _, rest = line.partition(" ")
    if kind == "engine" and " " in rest:
        plan.add_engine(*rest.split(" ", 1))
    elif kind == "gauntlet":
        plan.gauntlet = rest
    elif kind == "option" and line != kind:
        plan.options.append(rest)
    elif kind == "seeds":
        plan.seeds = number(kind, rest)
    elif kind == "limit":
        plan.limit = number(kind, rest)
    elif kind == "folder" and rest:
        plan.folder = rest
    elif line == "direct":
        plan.is_direct = True
    elif kind == "start-limit":
        plan.start_limit = seconds(kind, rest)
    elif kind == "move-limit":
        plan.move_limit = seconds(kind, rest)
    elif kind == "clock":
        plan.clock = clock(kind, rest)
    elif kind == "margin":
        plan.margin = seconds(kind, rest)
    elif kind == "scorer" and rest.strip(" "):
        plan.scorer = rest
    elif kind == "opening" and is_opening(rest):
        plan.openings.append(rest)
    else:
        raise Mistake(f"it isn't known: {line}")


def check_lines(lines: dict[int, str], place: str) -> None:
    """Raises Mistake where a plan can't have one of these lines besides the others, which would
    have no effect."""
    kinds = [line.partition(" ")[0] for line in lines.values()]
    for kind in ONCE:
        if kinds.count(kind) > 1:
            raise Mistake(f"{place} has more than one line with {kind}")
    for kind, (at, line) in zip(kinds, lines.items()):
        if kind in FOR_BETWEEN and "folder" not in kinds:
            raise Mistake(
                f"line {at} of {place} is '{line}', but none says in which directory the "
                f"engines start: write folder {os.getcwd()}, for example, as its first line"
            )
        if kind in LIMITS_OF_ANSWERS and "direct" in kinds:
            raise Mistake(f"line {at} of {place} is '{line}', which the line direct leaves out")


def parse(text: bytes, place: str) -> Plan:
    """Returns the plan of a file in this place."""
    plan, all_lines = Plan(), enumerate(os.fsdecode(text).split("\n"), 1)
    lines = {number: line for number, line in all_lines if not is_comment(line)}
    for number_of_line, line in lines.items():
        try:
            add_line(plan, line)
        except Mistake as mistake:
            raise Mistake(f"line {number_of_line} of {place}: {mistake.text}") from None
    check_lines(lines, place)
    plan.is_direct = plan.is_direct or plan.is_old()
    return plan


# ---- comments


def path_of(line: str) -> tuple[str, str]:
    """Returns the table and the key that have what a line says, as a plan is written now."""
    kind, _, rest = line.partition(" ")
    return ("engines", rest.split(" ")[0]) if kind == "engine" else ("", LISTS.get(kind, kind))


def comments_of(text: str) -> Iterator[tuple[tuple[str, str] | None, list[str]]]:
    """Yields the comments above each line, by what that says, and at last those below all."""
    waiting: list[str] = []
    for line in text.removesuffix("\n").split("\n"):
        if is_comment(line):
            waiting.append(line)
        else:
            yield path_of(line), waiting
            waiting = []
    yield None, waiting
