"""The file of a page, which is written in place of an earlier one."""
from __future__ import annotations

import contextlib
import os
from urllib.parse import quote

from .document import Document
from .view import Asked, View


def base_of(folder: str, place: str) -> str:
    """Returns a folder as seen from a page in this place."""
    above = os.path.dirname(os.path.realpath(place))
    seen = os.path.relpath(os.path.realpath(folder), above)
    return "" if seen == "." else f"{quote(os.fsencode(seen))}/"


def new_place(place: str, process: int) -> str:
    """Returns where a process writes what is to come to this place."""
    return f"{place}.new.{process}"


def write(text: str, place: str) -> None:
    """Writes a page in place of an earlier one, which is there until the new one is whole."""
    new = new_place(place, os.getpid())
    try:
        with open(new, "w", encoding="utf-8") as file:
            file.write(text)
        os.replace(new, place)
    except BaseException:
        with contextlib.suppress(OSError):
            os.unlink(new)
        raise


class PageFile:
    """The page of a tournament in a file."""

    def __init__(self, asked: Asked, place: str) -> None:
        self.asked, self.place = asked, place
        self.view: View | None = None

    def write(self) -> View:
        """Writes the page as it is now, and returns what it shows."""
        self.view = View(self.asked, self.view)
        base = base_of(self.asked.folder, self.place)
        write(Document(self.view, base).text(self.view), self.place)
        return self.view
