"""Finds where groups, blocks and items begin and end, in code whose comments are blank."""
from __future__ import annotations

import bisect
import re
from typing import Dict, Iterable, Iterator, List, NamedTuple, Set

from .scanner import HIDDEN, Part

OPEN, CLOSE = "([{", ")]}"
NAMED_BOUNDS = re.compile(r"\b(?:impl|fn\s+\w+|(?:trait|struct|enum|type|union)\s+\w+)\s*(?=<)")


class Plain:
    """Code in which each comment is a space and each text is a 0."""

    def __init__(self, parts: Iterable[Part]) -> None:
        self.text = ""
        self.starts: List[int] = []  # where each part begins in the text
        self.lines: List[int] = []  # and in the source
        for part in parts:
            self.starts.append(len(self.text))
            self.lines.append(part.line)
            shown = part.text
            if part.kind in HIDDEN:
                shown = ("0" if part.kind == "text" else " ") + "\n" * part.text.count("\n")
            self.text += shown

    def line(self, at: int) -> int:
        """Returns the line of the source of a place in the text."""
        part = bisect.bisect(self.starts, at) - 1
        return self.lines[part] + self.text.count("\n", self.starts[part], at)


def end_of_group(code: str, at: int) -> int:
    """Returns where the parentheses, brackets or braces end that begin here."""
    depth = 0
    for here in range(at, len(code)):
        depth += (code[here] in OPEN) - (code[here] in CLOSE)
        if depth == 0:
            return here + 1
    return len(code)


def start_of_group(code: str, at: int) -> int:
    """Returns where the group begins in which this place is, or -1."""
    depth = 0
    for here in range(at - 1, -1, -1):
        depth += (code[here] in CLOSE) - (code[here] in OPEN)
        if depth < 0:
            return here
    return -1


def end_of_angles(code: str, at: int) -> int:
    """Returns where the angle brackets end that begin here."""
    depth = 0
    for here in range(at, len(code)):
        depth += (code[here] == "<") - (code[here] == ">" and code[here - 1] not in "-=")
        if depth == 0:
            return here + 1
    return len(code)


def until(code: str, at: int, ends: str) -> int:
    """Returns where the first of these characters is that is in no group, from here on."""
    depth = 0
    while at < len(code):
        if depth == 0 and code[at] in ends:
            return at
        depth += (code[at] in OPEN) - (code[at] in CLOSE)
        if depth < 0:
            return at
        at += 1
    return at


def split(code: str) -> List[str]:
    """Returns the pieces between the commas that are in no group or angle brackets."""
    pieces: List[str] = []
    depth = begin = 0
    for at, char in enumerate(code):
        depth += (char in "([{<") - (char in ")]}" or (char == ">" and code[at - 1] not in "-="))
        if char == "," and depth == 0:
            pieces.append(code[begin:at].strip())
            begin = at + 1
    return [*pieces, code[begin:].strip()]


def parameters(code: str, at: int) -> Dict[str, str]:
    """Returns the bounds of each type parameter of the angle brackets that begin here."""
    inner = code[at + 1 : end_of_angles(code, at) - 1]
    pieces = [piece.split("=")[0] if ":" not in piece else piece for piece in split(inner)]
    named = [
        piece.partition(":") for piece in pieces if piece and not piece.startswith(("'", "const "))
    ]
    return {name.strip(): bounds for name, _, bounds in named}


def type_parameters(code: str) -> Set[str]:
    """Returns the names of all type parameters of a source."""
    return {name for found in NAMED_BOUNDS.finditer(code) for name in parameters(code, found.end())}


class Body(NamedTuple):
    """The body of an item: its header, up to the `{`, and where the body begins and ends."""

    header: re.Match[str]
    start: int
    end: int


def bodies(code: str, header: str) -> Iterator[Body]:
    """Yields the body of each item whose header this expression finds."""
    for found in re.finditer(header, code):
        yield Body(found, found.end(), end_of_group(code, found.end() - 1))
