"""The file of a plan: how it is read.

FOLDER/plan is TOML, as simple_toml.py reads it, and begins with `version = 1`. `folder` is the
directory in which engines start; it is empty in a plan of the first scripts, where that is the
working directory. `twogtp` has options of twogtp, and `openings` the moves of each opening. The
other keys are options of `tournament plan` without their dashes. `[engines]` has the command of
each engine.

earlier_plan.py reads plans of earlier scripts, and plan_writing.py writes plans.
"""
from __future__ import annotations

import os
from typing import Callable, NamedTuple

from ..model import Plan
from ..output import Mistake
from . import values
from .simple_toml import Document, Entry, Number, Value, read, text_of

ELSEWHERE = "take another directory"
VERSION, ENGINES = ("", "version"), ("engines", "")
THIS_VERSION = Number("1")
NEEDS_ANSWERS = ("move-limit", "start-limit", "clock", "margin", "openings")


# ---- values


class Field(NamedTuple):
    """What a key sets: an attribute of a plan, and how its value is read."""

    attribute: str
    read: Callable[[str, Value], object]
    is_number: bool = False  # though the attribute is a text


def shown(value: Value) -> str:
    """Returns a value as it is written, for a message."""
    from .simple_toml_writing import written  # which isn't needed elsewhere

    return written(value)


def text(key: str, value: Value) -> str:
    """Returns the text of a key."""
    found = text_of(value)
    if found is None:
        raise Mistake(f"{key} needs a text in quotes, and not {shown(value)}")
    if "\0" in found:
        raise Mistake(f"{key} has a zero byte, which no program can be given")
    return found


def name(key: str, value: Value) -> str:
    """Returns the text of a key, which isn't empty."""
    found = text(key, value)
    if not found.strip(" "):
        raise Mistake(f"{key} is empty")
    return found


def texts(key: str, value: Value) -> list[str]:
    """Returns the texts of a key."""
    if not isinstance(value, list):
        raise Mistake(f"{key} needs a list of texts, and not {shown(value)}")
    return [text(key, each) for each in value]


def openings(key: str, value: Value) -> list[str]:
    """Returns the openings of a key."""
    found = texts(key, value)
    for moves in found:
        if not values.is_opening(moves):
            raise Mistake(f"{key} has '{moves}', which isn't moves such as D4 Q16 pass")
    return found


def flag(key: str, value: Value) -> bool:
    """Returns whether a key is true."""
    if not isinstance(value, bool):
        raise Mistake(f"{key} needs true or false, and not {shown(value)}")
    return value


def count(key: str, value: Value) -> int:
    """Returns the number of a key."""
    return values.number(key, value if isinstance(value, Number) else shown(value))


def seconds(key: str, value: Value) -> str:
    """Returns the seconds of a key."""
    return values.seconds(key, value if isinstance(value, Number) else shown(value))


def clock(key: str, value: Value) -> str:
    """Returns the clock of a key."""
    return values.clock(key, text(key, value))


FIELDS = {
    "folder": Field("folder", text),
    "gauntlet": Field("gauntlet", name),
    "twogtp": Field("options", texts),
    "direct": Field("is_direct", flag),
    "move-limit": Field("move_limit", seconds, is_number=True),
    "clock": Field("clock", clock),
    "margin": Field("margin", seconds, is_number=True),
    "start-limit": Field("start_limit", seconds, is_number=True),
    "scorer": Field("scorer", name),
    "openings": Field("openings", openings),
    "seeds": Field("seeds", count),
    "limit": Field("limit", count),
}


# ---- reading


def read_text(place: str) -> bytes:
    """Returns the bytes of a plan's file."""
    try:
        with open(place, "rb") as file:
            return file.read()
    except FileNotFoundError:
        why = "tournament play makes it when it has tried the engines, and tournament plan at once"
        raise Mistake(f"there is no {place}: {why}") from None
    except NotADirectoryError:
        file_name = os.path.dirname(place)
        raise Mistake(
            f"{file_name} is a file: give the directory of the tournament, such as "
            f"{os.path.splitext(file_name)[0]}"
        ) from None
    except OSError as error:
        raise Mistake(f"{place} can't be read: {error.strerror}") from None


def decoded(data: bytes) -> str:
    """Returns the text of a file."""
    return data.decode("utf-8", "surrogateescape")


def is_toml(text: str) -> bool:
    """Returns whether the first line, if it isn't a comment, has the version."""
    lines = (line.strip() for line in text.split("\n"))
    first = next((line for line in lines if line and not line.startswith("#")), "")
    return first.partition("=")[0].rstrip() == VERSION[1]


def add_entry(plan: Plan, entry: Entry) -> None:
    """Adds an entry of the file to a plan. Raises Mistake where it isn't understood."""
    table, key = entry.path
    if table == "engines":
        if key:
            plan.add_engine(key, text(key, entry.value))
    elif table:
        raise Mistake(f"there is no table [{table}]: the only one is [engines]")
    elif entry.path == VERSION:
        if entry.value != THIS_VERSION:
            found = shown(entry.value)
            raise Mistake(
                f"this tournament reads version {THIS_VERSION} of a plan, and not {found}"
            )
    elif key in FIELDS:
        setattr(plan, FIELDS[key].attribute, FIELDS[key].read(key, entry.value))
    else:
        import difflib  # which isn't needed elsewhere

        (close,) = difflib.get_close_matches(key, list(FIELDS), 1, 0)
        raise Mistake(f"there is no key {key}: is it {close}?")


def plan_of(document: Document, place: str) -> Plan:
    """Returns the plan of a file in this place."""
    plan = Plan()
    lines = {entry.path: entry.line for entry in document.entries}
    for entry in document.entries:
        try:
            add_entry(plan, entry)
        except Mistake as mistake:
            raise Mistake(f"line {entry.line} of {place}: {mistake.text}") from None
    if plan.folder is None:
        raise Mistake(f"{place} lacks folder, the directory in which the engines start")
    for key in NEEDS_ANSWERS if plan.is_direct else ():
        if ("", key) in lines:
            raise Mistake(f"line {lines['', key]} of {place}: direct = true leaves out {key}")
    if not plan.folder and not plan.is_direct:
        raise Mistake(f"line {lines['', 'folder']} of {place}: folder is empty")
    plan.folder = plan.folder or None
    return plan


def parse(data: bytes, place: str) -> Plan:
    """Returns the plan of a file in this place."""
    if is_toml(decoded(data)):
        plan = plan_of(read(decoded(data), place), place)
    else:
        from . import earlier_plan  # which new plans don't need

        check_beginning(data, place)
        plan = earlier_plan.parse(data, place)
    if len(plan.engines) < 2 or not plan.seeds or not plan.limit:
        raise Mistake(f"{place} lacks engines, seeds or the limit")
    if plan.openings and plan.is_direct:
        raise Mistake(f"{place} has openings, which aren't played directly")
    return plan


def check_beginning(data: bytes, place: str) -> None:
    """Raises Mistake where the file of an earlier plan has the keys of one as it is now."""
    for number, line in enumerate(decoded(data).split("\n"), 1):
        key, equals, _ = line.partition("=")
        if equals and key.strip() in (*FIELDS, VERSION[1]):
            raise Mistake(
                f"line {number} of {place} has a key and a value, so that the first line has to be "
                f"version = {THIS_VERSION}"
            )


def read_plan(folder: str) -> Plan:
    """Returns the plan of a folder."""
    place = f"{folder}/plan"
    return parse(read_text(place), place)
