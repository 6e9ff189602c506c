"""Texts of sources: mistakes, names as constants have them, and comments that are left out."""
from __future__ import annotations

import re
from functools import lru_cache
from typing import Mapping, Match

Files = Mapping[str, str]  # the text of each file, by its path from the top of the repository
C_COMMENT = r"/\*.*?\*/"


class Mistake(Exception):
    """A source that can't be read so: where it is, and what is wrong."""


def snake(name: str) -> str:
    """Returns a name of several words as constants have it."""
    return re.sub(r"(?<=[a-z0-9])(?=[A-Z])", "_", name).upper()


def blank(found: Match[str]) -> str:
    """Returns as many spaces and lines as what was found."""
    return re.sub(r"[^\n]", " ", found[0])


@lru_cache(maxsize=64)
def bare(text: str, comment: str) -> str:
    """Returns the text with blanks for its comments, so that all else stays where it is."""
    return re.sub(comment, blank, text, flags=re.DOTALL)
