"""Games as the viewer takes them: a position at first, and steps from it."""
from __future__ import annotations

from typing import Any, Dict, Iterable, List, NamedTuple, Sequence

from ...config.rules import BLACK, PASS, WHITE, Board, column_and_row, index
from ...model import COLOURS, Side

SIMPLE, POSITIONAL = "simple", "positional"  # rules of ko
Step = Dict[str, Any]


class Shown(NamedTuple):
    """A game."""

    name: str
    title: str
    engines: List[str]
    size: int
    komi: str
    handicap: int
    black: List[int]  # points of the stones at first
    white: List[int]
    first: int  # the colour that moves first
    steps: List[Step]
    ended: str  # how
    result: str  # as SGF has it
    spent: Sequence[None] = (None, None)  # seconds of both sides, which aren't known
    atEnd: str = "The end"


def point_of(vertex: str, size: int) -> int:
    """Returns the number of a point, or of a pass."""
    if vertex == PASS:
        return size * size
    column, row = column_and_row(vertex)
    return (row - 1) * size + column - 1


def is_on_board(vertex: str, size: int) -> bool:
    """Returns whether a vertex is a pass, or a point of a board of this size."""
    return vertex == PASS or max(column_and_row(vertex)) <= size


class Position:
    """A board that steps are made on, with what came before for `undo` and for ko."""

    def __init__(self, size: int, ko: str = SIMPLE) -> None:
        self.size, self.ko = size, ko
        self.board = Board(size)
        self.before: list[tuple[bytes, bytes | None]] = []  # for undo
        self.first = BLACK

    def clear(self, size: int | None = None) -> None:
        """Removes all stones, perhaps of a board of another size."""
        self.size = size or self.size
        self.board, self.before, self.first = Board(self.size), [], BLACK

    def put(self, colour: int, points: Iterable[int]) -> None:
        """Puts stones, or with EMPTY removes them. Nothing before that can be taken back."""
        for point in points:
            self.board.points[index(point % self.size + 1, point // self.size + 1)] = colour
        self.board.before, self.before = None, []

    def play(self, side: Side, vertex: str) -> str | None:
        """Plays a move. Returns the rule that it breaks; then nothing changes."""
        known = (bytes(self.board.points), self.board.before)
        broken = self.board.play(side + 1, vertex)
        if broken is None and vertex != PASS and self.ko == POSITIONAL and self.is_repeated():
            self.board.points[:], self.board.before = known
            broken = "it repeats a position"
        if broken is None:
            self.before.append(known)
        return broken

    def is_repeated(self) -> bool:
        """Returns whether the board is as it was before."""
        return any(points == self.board.points for points, _ in self.before)

    def undo(self) -> bool:
        """Takes the last move back, and returns whether there was one."""
        if not self.before:
            return False
        self.board.points[:], self.board.before = self.before.pop()
        return True

    def points(self, colour: int) -> list[int]:
        """Returns the points of a colour's stones."""
        rows, columns = range(1, self.size + 1), range(1, self.size + 1)
        return [
            (row - 1) * self.size + column - 1
            for row in rows
            for column in columns
            if self.board.points[index(column, row)] == colour
        ]

    def as_step(self, name: str) -> Step:
        """Returns the step that shows this board."""
        stones = {"black": self.points(BLACK), "white": self.points(WHITE)}
        return {"name": name, "board": {"size": self.size, "first": self.first, **stones}}


def side_of(colour: str) -> Side | None:
    """Returns the side that a colour of GTP names."""
    found = {
        "b": Side.BLACK,
        "w": Side.WHITE,
        **{name: Side(at) for at, name in enumerate(COLOURS)},
    }
    return found.get(colour.lower())
