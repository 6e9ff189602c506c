"""Why a side failed, as twogtp writes it to a log: in words, without what differs from game to
game; and the illegal move that a side tried."""
from __future__ import annotations

import re

COLOUR = re.compile(r"\x1b\[[0-9;]*m")  # of a terminal
OWED = re.compile(
    r'(?P<count>[0-9]+) unanswered(?:, (?:the first )?"(?P<number>[0-9]+) (?P<command>.*?)")?'
    r": (?P<rest>.*)",
    re.DOTALL,
)
TRIED = re.compile(
    r'.*"[0-9]+ genmove [bw]": an illegal move: .*; it wrote "=[0-9]* +([A-Za-z][0-9]{1,2})\\n.*',
    re.DOTALL,
)
# how what happened begins where there is no whole reply to the command
WITHOUT_REPLY = (
    "its output ended",
    "writing failed",
    "reading failed",
    "not a GTP reply",
    "no end of a reply",
)
# colours, points and numbers: causes are alike without these
CHANGING = re.compile(
    rf"{COLOUR.pattern}|(?<=genmove )[bw]\b|(?<=play )[bw]\b|\b[A-HJ-Za-hj-z][0-9]{{1,2}}\b|[0-9]+"
)


def in_words(cause: str) -> str:
    """Returns a cause whose command can't be taken for a move. That it wasn't answered is said only
    where there is no whole answer."""
    owed = OWED.fullmatch(cause)
    if owed is None:
        return cause
    if owed["number"] is None:
        return owed["rest"]
    command, rest = f"command {owed['number']}, {owed['command']}", owed["rest"]
    if not rest.startswith(WITHOUT_REPLY):
        return f"{command}: {rest}"
    if owed["count"] == "1":
        return f"{command}, without a whole answer: {rest}"
    return f"{owed['count']} commands without a whole answer, from {command}, on: {rest}"


def point_tried(cause: str) -> str | None:
    """Returns the point of an illegal move; None where a cause has none."""
    tried = TRIED.fullmatch(cause)
    return tried[1].upper() if tried else None


def what_is_alike(cause: str) -> str:
    """Returns what a cause has in common with those of other games."""
    return CHANGING.sub("", cause)
