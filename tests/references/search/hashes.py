"""Hashes of boards and positions: sums in 64 bits of keys.

There is a key for each stone, and one each for the size, the colour to move and its ko point.
"""
from __future__ import annotations

from ..engine.game import Game
from ..engine.values import WHITE, Colour, Point

from .playouts import ko_point

WORD = 2**64
PLACES = 702  # of a board with an edge: 27 rows of 26
SIZES, MOVERS, KO_POINTS = 2 * PLACES, 1430, 1432  # where the keys of these begin


def key(number: int) -> int:
    """Returns the word of this number of the generator SplitMix64, which begins with 0."""
    first = number * 0x9E3779B97F4A7C15 % WORD
    second = (first ^ first >> 30) * 0xBF58476D1CE4E5B9 % WORD
    third = (second ^ second >> 27) * 0x94D049BB133111EB % WORD
    return third ^ third >> 31


def place(point: Point) -> int:
    """Returns the place of a point on a board with an edge."""
    column, row = point
    return 26 * row + column


def board_hash(game: Game) -> int:
    """Returns the hash of the board and its size."""
    stones = [2 * place(point) + (colour == WHITE) for point, colour in game.board.items()]
    return sum(map(key, [SIZES + game.size, *stones])) % WORD


def position_hash(game: Game, colour: Colour) -> int:
    """Returns the hash of the board, its size, the colour to move, and its ko point if any."""
    ko = ko_point(game, colour)
    more = [MOVERS + (colour == WHITE), *([KO_POINTS + place(ko)] if ko else [])]
    return sum(map(key, more), board_hash(game)) % WORD
