"""What genmove plays: docs/engine.md in Python. All of it is own."""
from __future__ import annotations

from typing import TYPE_CHECKING, Optional, Protocol

from ..search.generator import Pcg64

from . import values
from .game import points
from .values import PASS, RESIGN, Choice, Colour, Point, Word

if TYPE_CHECKING:
    from .engine import Engine

MOST_ENTRIES = 2000


class PolicyName(Word):
    """The value of the option --policy."""

    FIRST = "first"
    RANDOM = "random"
    BOOK = "book"


class Policy(Protocol):
    """What chooses a move of the engine: a vertex that is legal for the colour, or RESIGN."""

    def choose(self, game: Engine, colour: Colour) -> Choice:
        """Returns the choice of this colour."""


def candidates(game: Engine, colour: Colour) -> list[Point]:
    """Returns the legal points that have a neighbour without a stone of this colour.

    They come from A1 on, row by row.
    """
    return [point for point in points(game.size) if game.is_candidate(colour, point)]


class First:
    """Chooses the first candidate, or a pass where there is none."""

    def choose(self, game: Engine, colour: Colour) -> Choice:
        for point in points(game.size):
            if game.is_candidate(colour, point):
                return point
        return PASS


class Random:
    """Chooses one of n candidates: number (word mod n), counted from 0, by the next random word.

    Where there is none, this is a pass, and no word is drawn.
    """

    def __init__(self, seed: int) -> None:
        self.words = Pcg64.of_number(seed)

    def choose(self, game: Engine, colour: Colour) -> Choice:
        choices = candidates(game, colour)
        if not choices:
            return PASS
        return choices[next(self.words) % len(choices)]


class Book:
    """Chooses the entry that has the number of the record's moves, counted from 0.

    This is a pass where that entry is missing or empty, or a vertex that isn't legal.
    """

    def __init__(self, entries: list[Optional[Choice]]) -> None:
        self.entries = entries

    def choose(self, game: Engine, colour: Colour) -> Choice:
        number = len(game.moves)
        entry = self.entries[number] if number < len(self.entries) else None
        if entry is None or (entry is not RESIGN and not game.is_legal(colour, entry)):
            return PASS
        return entry


def read_book(text: bytes) -> Optional[list[Optional[Choice]]]:
    """Returns the entries of a book, or None where the text is no book. An empty entry is None.

    Entries are separated by commas; each is a vertex, resign in capital or small letters, or
    nothing. The empty text is a book of one empty entry. A book has at most 2,000 entries.
    """
    spelled = text.split(b",")
    entries = [read_entry(entry) for entry in spelled]
    if len(entries) > MOST_ENTRIES or any(
        read is None and entry != b"" for entry, read in zip(spelled, entries)
    ):
        return None
    return entries


def read_entry(text: bytes) -> Optional[Choice]:
    """Returns an entry of a book; None where it is empty, or where the text spells none."""
    return RESIGN if text.lower() == b"resign" else values.read_vertex(text)
