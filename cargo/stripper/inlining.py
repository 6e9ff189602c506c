"""Marks short functions `#[inline]`.

Rust compiles each crate by itself, while the kit compiles all code of a program together.
"""
from __future__ import annotations

import re
from typing import List, Optional

# The lines of a function that is marked, from its `fn` to its brace. With more, games take longer.
MOST_LINES = 9
FUNCTION = re.compile(r"(\s*)(?:pub(?:\([^)]*\))? )?fn \w+")


def end_of(lines: List[str], at: int, margin: str) -> Optional[int]:
    """Returns the line with the brace that ends the function which begins here.

    It is None where the function is too long, or has no body.
    """
    for end in range(at, min(at + MOST_LINES, len(lines))):
        if end > at and lines[end] == margin + "}":
            return end
        if lines[end].rstrip().endswith(";") and not any(
            "{" in line for line in lines[at : end + 1]
        ):
            return None
    return None


def inlined(text: str) -> str:
    """Returns the source with each short function marked."""
    lines = text.split("\n")
    made: List[str] = []
    for at, line in enumerate(lines):
        found = FUNCTION.match(line)
        if (
            found
            and end_of(lines, at, found.group(1))
            and not (made and made[-1].strip().startswith("#[inline"))
        ):
            made.append(found.group(1) + "#[inline]")
        made.append(line)
    return "\n".join(made)
