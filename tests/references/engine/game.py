"""The rules of play: docs/rules.md in Python, as literal as they are slow.

A game keeps a whole board for each of its moves, so that taking a move back, and ko, need no
thought. Its methods are small: an engine with one bug is a class that has another one of them
(tests/engines/wrong). All rules here are own, except where a function says otherwise.
"""
from __future__ import annotations

from functools import lru_cache
from typing import Dict, Final, Iterable, NamedTuple, Optional

from . import values
from .values import BLACK, PASS, WHITE, Colour, Point, Vertex, Word, other

MOST_MOVES = 2000
EMPTY: Final = None


class KoRule(Word):
    """A rule of ko: which earlier boards a play may not make again."""

    SIMPLE = "simple"
    POSITIONAL = "positional"


SIMPLE: Final = KoRule.SIMPLE
POSITIONAL: Final = KoRule.POSITIONAL


@lru_cache(maxsize=None)
def points(size: int) -> list[Point]:
    """Returns all points of a board, in the order A1, B1, .., A2, B2, .."""
    return [(column, row) for row in range(1, size + 1) for column in range(1, size + 1)]


def in_order(places: Iterable[Point]) -> list[Point]:
    """Returns these points in the board's order."""
    return sorted(places, key=lambda point: point[::-1])


def is_on(size: int, point: Point) -> bool:
    """Returns whether the board has this point."""
    column, row = point
    return 1 <= column <= size and 1 <= row <= size


@lru_cache(maxsize=None)
def neighbours(size: int, point: Point) -> list[Point]:
    """Returns the points that share a side with this one: left, right, below, above."""
    column, row = point
    around = [(column - 1, row), (column + 1, row), (column, row - 1), (column, row + 1)]
    return [near for near in around if is_on(size, near)]


class Board(Dict[Point, Colour]):
    """The stones of a board: the colour of each point that has one. Once made it isn't changed."""

    def __missing__(self, point: Point) -> None:
        return EMPTY

    def __hash__(self) -> int:  # type: ignore[override]  # a dict has none, since most change
        return hash(frozenset(self.items()))

    def count(self, colour: Colour) -> int:
        """Returns how many stones of this colour there are."""
        return list(self.values()).count(colour)


def filled(board: Board, places: Iterable[Point], stone: Optional[Colour] = EMPTY) -> Board:
    """Returns the board with this stone on these points, or with none there."""
    board = Board(board)
    for point in places:
        if stone is EMPTY:
            board.pop(point, None)
        else:
            board[point] = stone
    return board


class Move(NamedTuple):
    """A move of the record."""

    colour: Colour
    vertex: Vertex


class Game:
    """A game: the rule of ko, size, komi in half points, the board, and the record of its moves."""

    def __init__(self, rule: KoRule = SIMPLE) -> None:
        self.rule = rule
        self.komi = 0
        self.begin(19)

    def begin(self, size: int) -> None:
        """Sets the size and empties board and record. Komi and the rule of ko stay.

        The standard, setup commands, leaves both to the engine: which sizes there are, and what is
        emptied.
        """
        self.size = size
        self.board = Board()
        self.moves: list[Move] = []
        self.boards: list[Board] = []  # the board before each of the moves
        self.near = {point: self.neighbours(point) for point in points(size)}

    def first_board(self) -> Board:
        """Returns the board before the first move."""
        return self.boards[0] if self.boards else self.board

    def neighbours(self, point: Point) -> list[Point]:
        """Returns the points that are neighbours of this one."""
        return neighbours(self.size, point)

    # ---- chains and liberties

    def chain(self, board: Board, point: Point) -> set[Point]:
        """Returns the points that are joined to this one by neighbours that are all like it.

        That is a stone's chain, or an empty point's region.
        """
        like, chain, todo = board.get(point), {point}, [point]
        while todo:
            for near in self.near[todo.pop()]:
                if near not in chain and board.get(near) == like:
                    chain.add(near)
                    todo.append(near)
        return chain

    def is_free(self, board: Board, chain: Iterable[Point]) -> bool:
        """Returns whether the chain has a liberty: an empty point next to one of its stones."""
        return any(near not in board for stone in chain for near in self.near[stone])

    def liberties(self, board: Board, chain: Iterable[Point]) -> set[Point]:
        """Returns the liberties of a chain."""
        return {near for stone in chain for near in self.near[stone] if near not in board}

    # ---- plays

    def put(self, colour: Colour, point: Point) -> Board:
        """Returns the board after a stone of this colour is put on this point.

        Then every stone of the other colour whose chain has no liberty is removed, all at once.
        """
        board = filled(self.board, [point], colour)
        return filled(board, self.captures(board, colour, point))

    def captures(self, board: Board, colour: Colour, point: Point) -> set[Point]:
        """Returns the stones that a stone of this colour on this point takes.

        That stone is on the board already. Only chains next to the stone can have lost a liberty.
        """
        return self.dead(board, other(colour), self.near[point])

    def dead(self, board: Board, colour: Colour, places: Iterable[Point]) -> set[Point]:
        """Returns the stones of this colour whose chain is on one of these points, and not free."""
        stones: set[Point] = set()
        for point in places:
            if board.get(point) == colour and point not in stones:
                chain = self.chain(board, point)
                if not self.is_free(board, chain):
                    stones |= chain
        return stones

    def is_legal(self, colour: Colour, vertex: Vertex) -> bool:
        """Returns whether this colour may move so.

        A pass is always legal and changes no stone. A play is illegal off the board, on a stone,
        where its chain then has no liberty (suicide), and where it is ko. Any colour may move at
        any time.
        """
        if vertex == PASS:
            return True
        if not is_on(self.size, vertex) or vertex in self.board:
            return False
        board = self.put(colour, vertex)
        return not self.is_suicide(board, colour, vertex) and not self.is_ko(board, colour, vertex)

    def is_suicide(self, board: Board, colour: Colour, point: Point) -> bool:
        """Returns whether the play that makes this board is suicide."""
        return not self.is_free(board, self.chain(board, point))

    def is_ko(self, board: Board, colour: Colour, point: Point) -> bool:
        """Returns whether the play that makes this board is ko.

        By the simple rule a play is ko if its board stood before the previous move. A pass counts
        as a previous move, and with an empty record there is no ko. By the positional rule a play
        is ko if its board stood at any time, at the start or after any of the moves, whoever was to
        move. (A play puts a stone down, so it never leaves the board as it is.)
        """
        if self.rule == POSITIONAL:
            return board in self.boards
        return bool(self.boards) and board == self.boards[-1]

    def after(self, colour: Colour, vertex: Vertex) -> Optional[Board]:
        """Returns the board that this move makes, or None where the move is illegal."""
        if not self.is_legal(colour, vertex):
            return None
        return self.board if vertex == PASS else self.put(colour, vertex)

    # ---- moves

    def is_full(self) -> bool:
        """Returns whether the record has no room for a further move."""
        return len(self.moves) >= MOST_MOVES

    def play(self, colour: Colour, vertex: Vertex) -> bool:
        """Adds this move, and returns whether it is legal; where it isn't, nothing changes."""
        is_legal = self.is_legal(colour, vertex)
        if is_legal:
            self.move(colour, vertex)
        return is_legal

    def move(self, colour: Colour, vertex: Vertex) -> None:
        """Adds a legal move."""
        before = self.board
        if vertex != PASS:
            self.board = self.put(colour, vertex)
        self.boards.append(before)
        self.moves.append(Move(colour, vertex))

    def undo(self) -> None:
        """Takes the last move back, with what it captured. (The standard, core play commands.)"""
        self.board = self.boards.pop()
        self.moves.pop()

    def place_handicap(self, stones: Iterable[Point]) -> None:
        """Puts Black's stones on these points. They are no moves, so they are never taken back."""
        self.board = filled(self.board, stones, BLACK)

    # ---- what is counted and shown

    def captured(self, colour: Colour) -> int:
        """Returns how many stones this colour's moves have taken.

        A play that takes none makes the board one stone richer.
        """
        return sum(
            len(before) + 1 - len(after)
            for move, before, after in zip(self.moves, self.boards, [*self.boards[1:], self.board])
            if move.colour == colour and move.vertex != PASS
        )

    def score(self) -> int:
        """Returns Black's lead in half points, below zero where White leads.

        A stone counts for its colour; an empty region counts for a colour where the stones next to
        it are all of that colour and there is at least one. Every stone is alive. The score is
        Black's area less White's area less komi.
        """
        area = {colour: self.board.count(colour) for colour in Colour}
        seen: set[Point] = set()
        for point in points(self.size):
            if point not in self.board and point not in seen:
                region = self.chain(self.board, point)
                seen |= region
                near = {place for empty in region for place in self.near[empty]}
                colours = {self.board[place] for place in near if place in self.board}
                if len(colours) == 1:
                    area[colours.pop()] += len(region)
        return 2 * (area[BLACK] - area[WHITE]) - self.komi

    def show(self) -> str:
        """Returns the board as text.

        There is a line for each row from the highest down, with the row's number; then the columns'
        letters, and the stones that each colour has taken.
        """
        marks = {EMPTY: ". ", BLACK: "X ", WHITE: "O "}
        columns = range(1, self.size + 1)
        lines = [
            "".join(marks[self.board.get((column, row))] for column in columns) + str(row)
            for row in reversed(columns)
        ]
        lines.append(" ".join(values.COLUMNS.decode()[: self.size]))
        lines.append(f"captures B {self.captured(BLACK)} W {self.captured(WHITE)}")
        return "\n".join(lines)
