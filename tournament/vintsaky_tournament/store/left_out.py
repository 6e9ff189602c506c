"""The games that a sequential test has left out when it was over: a line for each such test. Where
they get a result later, that reopens no test."""
from __future__ import annotations

import contextlib
from typing import Iterable, NamedTuple

from ..model import Games
from . import results


class Decided(NamedTuple):
    """A test that was over, in words: its engines, differences and errors."""

    folder: str
    text: str

    @property
    def place(self) -> str:
        """Returns the path of the file."""
        return f"{self.folder}/left-out"

    def games(self, games: Games) -> set[int]:
        """Returns the games that this test has left out."""
        found: set[int] = set()
        with contextlib.suppress(FileNotFoundError):
            for line in results.bytes_of(self.place).decode("latin-1").splitlines():
                text, _, names = line.partition(": ")
                if text == self.text:
                    numbers = map(games.number, names.split())
                    found.update(number for number in numbers if number is not None)
        return found

    def add(self, names: Iterable[str]) -> None:
        """Adds the line of this test, which has left out these games."""
        with open(self.place, "a", encoding="ascii") as file:
            file.write(f"{self.text}: {' '.join(names)}\n")
