"""The moves of a game's record."""
from __future__ import annotations

import ctypes
from collections.abc import Sequence
from functools import lru_cache
from typing import TYPE_CHECKING, Any, Callable, Dict, Iterator, List, NamedTuple, Union, overload

from ._library import library, untyped
from ._numbers import Cause
from ._refused import Refused, shown
from .values import VERTICES, Colour, Vertex

if TYPE_CHECKING:
    from .games import Game

MOVE_AT = untyped(library.vintsaky_game_made)


class Move(NamedTuple):
    """A move of a record."""

    colour: Colour
    vertex: Vertex


MOVES = {
    (int(colour), number): Move(colour, VERTICES[number])
    for colour in Colour
    for number in VERTICES
}


@lru_cache(maxsize=None)
def text_of_move(move: Move) -> str:
    """Returns a move, as a pickle has it: `b D4`."""
    return f"{move.colour} {move.vertex}"


@lru_cache(maxsize=None)
def moves_by_text() -> Dict[str, Move]:
    """Returns each move by its text."""
    return {text_of_move(move): move for move in MOVES.values()}


class Moves(Sequence[Move]):
    """The moves of a game's record. A loop goes over the moves that there are at its beginning."""

    __slots__ = ("_game",)

    def __init__(self, game: Game) -> None:
        self._game = game

    def __len__(self) -> int:
        length: int = library.vintsaky_game_length(self._game._pointer())
        return length

    @overload
    def __getitem__(self, number: int) -> Move:
        ...

    @overload
    def __getitem__(self, number: slice) -> List[Move]:
        ...

    def __getitem__(self, number: Union[int, slice]) -> Union[Move, List[Move]]:
        length = len(self)
        try:
            numbers = range(length)[number]
        except IndexError:
            problem = f"{shown(number)} is no move of a record of {length}"
            raise IndexError(f"number: {problem}") from None
        except TypeError:
            problem = f"{shown(number)} is neither an int nor a slice of them"
            raise TypeError(f"number: {problem}") from None
        if isinstance(numbers, range):
            return self._moves_at(numbers)
        return self._moves_at(range(numbers, numbers + 1))[0]

    def __iter__(self) -> Iterator[Move]:
        return iter(self._moves_at(range(len(self))))

    def _moves_at(self, numbers: range) -> List[Move]:
        """Returns the moves with these numbers, each by one call, whose arguments are made once."""
        number, colour, vertex = ctypes.c_size_t(), ctypes.c_uint32(), ctypes.c_uint32()
        arguments = self._game._pointer(), number, ctypes.byref(colour), ctypes.byref(vertex)
        moves: List[Move] = []
        for number.value in numbers:
            cause = MOVE_AT(*arguments)
            if cause:
                raise Refused(Cause(cause), f"move {number.value}")
            moves.append(MOVES[colour.value, vertex.value])
        return moves

    def __repr__(self) -> str:
        return f"<vintsaky.Moves {' '.join(str(move.vertex) for move in self)}>"


def play_numbered(play: Callable[[Any, Any], None], number: int, move: Any) -> None:
    """Plays the move with this number, which an error names."""
    try:
        colour, vertex = move
    except (TypeError, ValueError):
        raise TypeError(
            f"move {number}: {shown(move)} is no pair of a colour and a vertex"
        ) from None
    try:
        play(colour, vertex)
    except Refused as refused:
        raise Refused(refused.cause, f"move {number}: {refused.what}", refused.said) from None
    except TypeError as problem:  # which may be that of a subclass's own play
        raise TypeError(f"move {number}: {problem}") from problem
