"""The rules of Go by which openings are judged: captures, suicide, simple ko, and the points of a
handicap. twogtp plays by the same."""
from __future__ import annotations

import re
from collections import Counter
from typing import Iterable

from ..model import COLUMNS

EMPTY, BLACK, WHITE, EDGE = range(4)  # the bytes of a board
WIDTH = 27  # of a row with its edge: a board has 25 columns at most
VERTEX = re.compile("([A-HJ-Z])([1-9]|1[0-9]|2[0-5])")
PASS = "pass"


def as_vertex(text: str) -> str | None:
    """Returns the vertex of a text, as twogtp writes it; None where it is none."""
    vertex = VERTEX.fullmatch(text.upper())
    if vertex:
        return vertex[0]
    return PASS if text.lower() == PASS else None


def column_and_row(vertex: str) -> tuple[int, int]:
    """Returns the column and the row of a point, counted from 1 and from the lower left."""
    return COLUMNS.index(vertex[0]) + 1, int(vertex[1:])


def index(column: int, row: int) -> int:
    """Returns the index of a point on a board."""
    return WIDTH * row + column


def handicap_points(size: int, stones: int) -> list[tuple[int, int]]:
    """Returns the columns and rows of a handicap's stones.

    They are in the corners, then in the middles of the sides, and an odd number from 5 up has the
    middle of the board. They are on the third line, or on the fourth from size 13 up.
    """
    low = 3 if size < 13 else 4
    high, middle = size + 1 - low, (size + 1) // 2
    corners = [(low, low), (high, high), (low, high), (high, low)]
    sides = [(low, middle), (high, middle), (middle, low), (middle, high)]
    has_middle = stones >= 5 and stones % 2 == 1
    return (corners + sides)[: stones - has_middle] + [(middle, middle)] * has_middle


class Board:
    """A board, and for ko how it was before the last move."""

    def __init__(self, size: int, handicap: int = 0) -> None:
        self.points = bytearray([EDGE]) * (WIDTH * WIDTH)
        self.before: bytes | None = None
        for row in range(1, size + 1):
            self.points[index(1, row) : index(size + 1, row)] = bytes(size)
        for point in handicap_points(size, handicap):
            self.points[index(*point)] = BLACK

    def play(self, colour: int, move: str) -> str | None:
        """Plays a vertex or a pass. Returns the first rule that it breaks; then nothing changes."""
        before, broken = bytes(self.points), None
        if move != PASS:
            broken = self.put_stone(colour, index(*column_and_row(move)))
            if not broken and self.points == self.before:
                broken = "it is ko"
        if broken:
            self.points[:] = before
        else:
            self.before = before
        return broken

    def put_stone(self, colour: int, point: int) -> str | None:
        """Puts a stone on a point, and removes what it captures. Returns the rule that it breaks,
        other than ko."""
        if self.points[point] == EDGE:
            return "it is off the board"
        if self.points[point] != EMPTY:
            return "the point is occupied"
        self.points[point] = colour
        for neighbour in neighbours(point):
            if self.points[neighbour] == BLACK + WHITE - colour:
                stones, has_liberty = self.chain(neighbour)
                for stone in () if has_liberty else stones:
                    self.points[stone] = EMPTY
        return None if self.chain(point)[1] else "it is suicide"

    def remove(self, vertices: Iterable[str]) -> str | None:
        """Removes the stones on these vertices. Returns the first that has none; then nothing
        changes."""
        points = {vertex: index(*column_and_row(vertex)) for vertex in vertices}
        for vertex, point in points.items():
            if self.points[point] not in (BLACK, WHITE):
                return vertex
        for point in points.values():
            self.points[point] = EMPTY
        return None

    def area(self) -> int:
        """Returns the points of Black's area less those of White's. Empty points are in that of the
        only colour next to them and those that they are connected with."""
        counts, seen = Counter(self.points), set()
        for point, colour in enumerate(self.points):
            if colour == EMPTY and point not in seen:
                region, _ = self.chain(point)
                seen |= region
                around = {self.points[each] for at in region for each in neighbours(at)}
                if len(around - {EMPTY, EDGE}) == 1:
                    counts[(around - {EMPTY, EDGE}).pop()] += len(region)
        return counts[BLACK] - counts[WHITE]

    def chain(self, point: int) -> tuple[set[int], bool]:
        """Returns the chain of the stone on a point, and whether it has a liberty."""
        chain, to_visit, has_liberty = {point}, [point], False
        while to_visit:
            for neighbour in neighbours(to_visit.pop()):
                has_liberty = has_liberty or self.points[neighbour] == EMPTY
                if self.points[neighbour] == self.points[point] and neighbour not in chain:
                    chain.add(neighbour)
                    to_visit.append(neighbour)
        return chain, has_liberty


def neighbours(point: int) -> tuple[int, int, int, int]:
    """Returns the indices of the points around one."""
    return point - WIDTH, point - 1, point + 1, point + WIDTH
