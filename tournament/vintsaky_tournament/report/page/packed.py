"""The moves of all games for the page's script, which unpacks a chunk of games where one of them is
opened: a byte a move, or two on large boards, and a byte for the seconds of each."""
from __future__ import annotations

import base64
import math
import zlib
from typing import TYPE_CHECKING, Dict, Iterator, Sequence

if TYPE_CHECKING:
    from .games import Game

CHUNK = 128  # games
FIRST, GROWTH = 0.001, 1.07  # seconds of level 2, and how much longer each next level is
MOST_LEVEL = 255
SMALL = 255  # numbers of moves that a byte holds


class Levels(Dict[int, int]):
    """The levels of milliseconds and one more, numbers from 1 to 255 that are right to some 3
    percent. Level 1 stands for less than half a millisecond, which the notes have as none, and 0
    for what isn't known."""

    def __missing__(self, time: int) -> int:
        found = min(time, 1)
        if time > 1:
            seconds = (time - 1) / 1000
            found = max(2, min(MOST_LEVEL, 2 + round(math.log(seconds / FIRST, GROWTH))))
        self[time] = found
        return found


LEVELS = Levels()


def levels_in(game: Game) -> bytes:
    """Returns the levels of the seconds of a game's moves."""
    times = game.noted.times
    return bytes(game.length) if times is None else bytes([LEVELS[time] for time in times])


def chunks_of(games: Sequence[Game], size: int) -> Iterator[str]:
    """Yields chunks of games: the low bytes of all moves, their high ones on large boards, and the
    levels of their seconds, deflated, as base64."""
    for begin in range(0, len(games), CHUNK):
        some = games[begin : begin + CHUNK]
        moves = [move for game in some for move in game.moves]
        planes = [bytes(move & 255 for move in moves)]
        if size * size > SMALL:
            planes.append(bytes(move >> 8 for move in moves))
        planes += [levels_in(game) for game in some]
        packer = zlib.compressobj(9, zlib.DEFLATED, -15)
        yield base64.b64encode(packer.compress(b"".join(planes)) + packer.flush()).decode()
