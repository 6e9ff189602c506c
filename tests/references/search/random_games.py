"""Random games, half played, and the playouts that are asked of them."""
from __future__ import annotations

from enum import Enum
from functools import lru_cache
from random import Random
from typing import NamedTuple, Sequence

from ..engine import values
from ..engine.game import MOST_MOVES, POSITIONAL, SIMPLE, Game, neighbours, points
from ..engine.values import BLACK, PASS, WHITE, Colour, Point, Vertex, other

from . import playouts
from .generator import Pcg64

SMALL, LARGE = [1, 2, 3, 4, 5, 5, 6, 6, 7, 7, 8, 9, 9], range(10, 26)
NO_LIMIT = 2**32 - 1  # the most that a limit may be


class RandomGame(NamedTuple):
    """A game of the reference, and a playout of it."""

    game: Game
    colour: Colour  # whose move is the first of the playout
    seed: int
    limit: int  # on the moves of the playout

    def words(self) -> Pcg64:
        """Returns the random words of the playout."""
        return Pcg64.of_number(self.seed)

    def copy(self) -> Game:
        """Returns a copy of the game, to play on."""
        copy = Game(self.game.rule)
        copy.begin(self.game.size)
        copy.komi, copy.board = self.game.komi, self.game.board
        copy.moves, copy.boards = list(self.game.moves), list(self.game.boards)
        return copy


def random_game(number: int) -> RandomGame:
    """Returns the random game of this number.

    Of twelve one is on a large board, one has a record that is all but full, and three stop at a
    ko.
    """
    rng = Random(number)
    is_long = number % 12 == 4
    sizes = range(2, 5) if is_long else LARGE if number % 12 == 5 else SMALL
    size = rng.choice(sizes)
    game = new_game(rng, size)
    if is_long:
        moves = rng.randrange(MOST_MOVES - 30, MOST_MOVES + 1)
    else:
        moves = rng.choice([0, rng.randrange(size * size)])
    colour = play_some(rng, game, moves, until_ko=number % 4 == 2)
    for _ in range(rng.choice([0, 0, 0, 0, 0, 1, 1, 2])):
        if not game.is_full():
            game.play(colour, PASS)
    limit = rng.choice([NO_LIMIT, NO_LIMIT, NO_LIMIT, size * size // 2, rng.randrange(12), 0])
    first = rng.choice([colour, other(colour)])
    return RandomGame(game, first, rng.choice([rng.randrange(2**64), rng.randrange(4)]), limit)


def new_game(rng: Random, size: int) -> Game:
    """Returns a game without a move."""
    game = Game(rng.choice([SIMPLE, POSITIONAL]))
    game.begin(size)
    game.komi = rng.randrange(-30, 31)
    stones = values.handicap_points(size, rng.choice([2, 4, 9]))
    if stones and rng.randrange(3) == 0:
        game.place_handicap(stones)
    return game


def play_some(rng: Random, game: Game, moves: int, until_ko: bool) -> Colour:
    """Plays so many moves, and where a ko is wanted, up to 200 more.

    Returns the colour that moved last.
    """
    colour = rng.choice([BLACK, WHITE])
    for number in range(moves + 200 * until_ko):
        if number >= moves and playouts.ko_point(game, other(colour)):
            break
        colour = colour if rng.randrange(8) == 0 else other(colour)
        first = surrounded(game, other(colour)) if number >= moves else []
        game.play(colour, random_vertex(rng, game, colour, first))
    return colour


def surrounded(game: Game, colour: Colour) -> list[Point]:
    """Returns the empty points whose neighbours all have stones of this colour.

    A play on one of them that takes stones often makes a ko.
    """
    board, size = game.board, game.size
    empty = [point for point in points(size) if point not in board]
    return [
        point
        for point in empty
        if all(board.get(near) == colour for near in neighbours(size, point))
    ]


def random_vertex(rng: Random, game: Game, colour: Colour, first: Sequence[Point]) -> Vertex:
    """Returns a legal point, one of these if possible, and a pass at times.

    It may be an own eye. Where ten random points are illegal, this is a pass too.
    """
    size = game.size
    count = 10 if rng.randrange(30) else 0
    others = [(rng.randrange(1, size + 1), rng.randrange(1, size + 1)) for _ in range(count)]
    for point in [*first, *others]:
        if game.is_legal(colour, point):
            return point
    return PASS


class Played(NamedTuple):
    """A random game, and the game after its playout."""

    asked: RandomGame
    after: Game


@lru_cache(maxsize=400)
def played(number: int) -> Played:
    """Returns the random game of this number, and the game after its playout.

    The latest are kept, each with some megabytes of boards.
    """
    asked = random_game(number)
    after = asked.copy()
    playouts.playout(after, asked.colour, asked.words(), asked.limit)
    return Played(asked, after)


# ---- what the random games show


class Kind(Enum):
    """What a random game, or its playout, may show."""

    KO_POINT = "a ko point"
    OWN_EYE = "an own eye"
    POSITIONAL_KO = "positional ko"
    HANDICAP = "a handicap"
    NO_MOVE = "no move"
    TWO_PASSES = "two passes"
    LIMIT = "the limit"
    FULL_RECORD = "a full record"
    PLAY_AFTER_A_PASS = "a play after a pass"
    TWO_STONES_TAKEN = "a play that takes two stones or more"
    LARGE_BOARD = "a large board"


def kinds_of(number: int) -> set[Kind]:
    """Returns what the random game of this number shows."""
    asked, after = played(number)
    game = asked.game
    before, moves = len(game.moves), after.moves[len(game.moves) :]
    boards = [*after.boards[before:], after.board]
    plays = [(colour, point) for colour in Colour for point in points(game.size)]
    shown = {
        Kind.KO_POINT: any(playouts.ko_point(game, colour) for colour in Colour),
        Kind.OWN_EYE: any(playouts.is_own_eye(game, *play) for play in plays),
        Kind.POSITIONAL_KO: game.rule == POSITIONAL,
        Kind.HANDICAP: bool(game.first_board()),
        Kind.NO_MOVE: not moves,
        Kind.TWO_PASSES: len(moves) > 2 and playouts.is_finished(after),
        Kind.LIMIT: len(moves) == asked.limit and asked.limit > 0,
        Kind.FULL_RECORD: after.is_full() and before < MOST_MOVES,
        Kind.PLAY_AFTER_A_PASS: any(
            move.vertex == PASS != later.vertex for move, later in zip(moves, moves[1:])
        ),
        Kind.TWO_STONES_TAKEN: any(
            len(board) > len(later) for board, later in zip(boards, boards[1:])
        ),
        Kind.LARGE_BOARD: game.size > 19,
    }
    return {kind for kind, is_shown in shown.items() if is_shown}
