"""What a search asks of a game, and whole playouts, in plain Python.

A list of points is in the board's order: A1, B1, .., A2, B2, ..
"""
from __future__ import annotations

from typing import Iterator, NamedTuple, Optional

from ..engine.game import Game, in_order, is_on, neighbours, points
from ..engine.values import PASS, Colour, Point, Vertex, other

# ---- what a search asks


def stones_of(game: Game) -> list[Optional[Colour]]:
    """Returns the stone of each point, or None."""
    return [game.board.get(point) for point in points(game.size)]


def legal_mask(game: Game, colour: Colour) -> list[bool]:
    """Returns for each point whether a play of this colour is legal there."""
    return [game.is_legal(colour, point) for point in points(game.size)]


def chain_points(game: Game, point: Point) -> list[Point]:
    """Returns the stones of the chain of the stone on this point; none where there is no stone."""
    return in_order(game.chain(game.board, point)) if point in game.board else []


def chain_liberties(game: Game, point: Point) -> list[Point]:
    """Returns the liberties of that chain."""
    return in_order(game.liberties(game.board, chain_points(game, point)))


class ChainSize(NamedTuple):
    """How many stones and liberties a chain has."""

    stones: int
    liberties: int


def chain(game: Game, point: Point) -> Optional[ChainSize]:
    """Returns the size of the chain of the stone on this point, or None where there is no stone."""
    if point not in game.board:
        return None
    return ChainSize(len(chain_points(game, point)), len(chain_liberties(game, point)))


def taken_by_last(game: Game) -> list[Point]:
    """Returns the points of the stones that the last move took."""
    return in_order(game.boards[-1].keys() - game.board.keys()) if game.moves else []


def ko_point(game: Game, colour: Colour) -> Optional[Point]:
    """Returns the point on which this colour would bring back the board before the last move."""
    for point in taken_by_last(game):
        if game.put(colour, point) == game.boards[-1]:
            return point
    return None


def is_own_eye(game: Game, colour: Colour, point: Point) -> bool:
    """Returns whether the point is an own eye of this colour.

    It is an empty point whose neighbours all have stones of this colour. Of the four diagonal
    points at most one has a stone of the other colour, and none of them where one of the four is
    off the board.
    """
    board, size = game.board, game.size
    if (
        not is_on(size, point)
        or point in board
        or any(board.get(near) != colour for near in neighbours(size, point))
    ):
        return False
    column, row = point
    diagonal = [(column + right, row + up) for right in (-1, 1) for up in (-1, 1)]
    others = sum(board.get(near) == other(colour) for near in diagonal)
    return others <= (1 if all(is_on(size, near) for near in diagonal) else 0)


def is_candidate(game: Game, colour: Colour, point: Point) -> bool:
    """Returns whether a play of this colour is legal on the point, and the point is no own eye."""
    return not is_own_eye(game, colour, point) and game.is_legal(colour, point)


def random_move(game: Game, colour: Colour, word: int) -> Vertex:
    """Returns of n candidates that of the number `word` modulo n; a pass where there is none."""
    candidates = [point for point in points(game.size) if is_candidate(game, colour, point)]
    return candidates[word % len(candidates)] if candidates else PASS


def is_finished(game: Game) -> bool:
    """Returns whether the last two moves of the record are passes."""
    last = game.moves[-2:]
    return len(last) == 2 and all(move.vertex == PASS for move in last)


# ---- playouts


class Playout:
    """A playout of a game: its random words, and the order of the empty points."""

    def __init__(self, game: Game, words: Iterator[int]) -> None:
        self.game = game
        self.words = words
        self.order = [point for point in points(game.size) if point not in game.board]

    def run(self, colour: Colour, limit: int) -> None:
        """Makes moves of both colours by turns.

        They end where the last two are passes, so many are made, or the record is full.
        """
        made = 0
        while not (is_finished(self.game) or made == limit or self.game.is_full()):
            self.turn(colour)
            colour = other(colour)
            made += 1

    def turn(self, colour: Colour) -> None:
        """Plays the first candidate that is drawn from the order; passes where none is left.

        What is drawn in vain is placed behind what is drawn from.
        """
        left = len(self.order)
        while left > 0:
            place = self.draw(left)
            if is_candidate(self.game, colour, self.order[place]):
                self.play(colour, place)
                return
            left -= 1
            self.order[place], self.order[left] = self.order[left], self.order[place]
        self.game.play(colour, PASS)

    def draw(self, count: int) -> int:
        """Returns a number below this count, by the high half of the next word."""
        return (next(self.words) >> 32) * count >> 32

    def play(self, colour: Colour, place: int) -> None:
        """Plays the point at this place.

        The last of the order takes the place, and points that become empty are added at the end.
        """
        before, point = self.game.board, self.order[place]
        self.game.move(colour, point)
        self.order[place] = self.order[-1]
        self.order.pop()
        self.order += in_order(before.keys() - self.game.board.keys())


def playout(game: Game, colour: Colour, words: Iterator[int], limit: int) -> None:
    """Makes the moves of a playout."""
    Playout(game, words).run(colour, limit)


def rollout(game: Game, colour: Colour, words: Iterator[int], limit: int) -> int:
    """Returns the score after the moves of a playout, in half points. The game stays as it was."""
    before = len(game.moves)
    playout(game, colour, words, limit)
    score = game.score()
    while len(game.moves) > before:
        game.undo()
    return score
