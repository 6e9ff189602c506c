"""Many games in one call, for programs that learn.

Moves go in, and results and planes are written into buffers.
"""
from __future__ import annotations

import ctypes
import operator
import threading
from array import array
from contextlib import contextmanager
from threading import get_ident
from typing import Any, Dict, Iterator, List, NoReturn, Optional, Sequence, Tuple

from . import _declared
from ._buffers import BYTE, FLOAT, Buffer, buffer_of, buffer_or_none, check_disjoint
from ._objects import clamped, integer, int_in_range
from ._library import library, unlocked
from ._refused import check, shown
from .games import Game
from .values import Komi, KoRule

MOST_MOVES = 2000  # of a record
BUSY = (
    "these Games are in a call: once it has returned, its thread may use them, or another one that "
    "calls adopt()"
)
MOST_GAMES = 2**20
MOST_NUMBER = 2**32 - 1


class Games:
    """Up to 2^20 games of one size, which one call plays.

    A game is over after two passes, or with `limit` moves, 1 to 2,000. `step` begins it again then,
    and it keeps its komi, ko rule and handicap.

    The colours play in turn: after a move it is the other colour's turn, and before the first move
    it is Black's, or White's if handicap stones were placed. A move is a number: the `Game.index`
    of a point, and size * size for a pass.

    A buffer that a call writes is a bytearray, an `array`, or a numpy array in C order. The items
    of planes and masks are bytes (`B`, or `?`, numpy's bool) or floats of 32 bits (`f`).

    While a call runs, other threads can run, but any other call on these games raises RuntimeError.

    >>> games = Games(2, size=3)
    >>> planes = bytearray(2 * 2 * 9)
    >>> games.step([4, 0], planes=planes)
    0
    >>> list(planes[9:18])  # the first game's second plane: Black's stones, as White has the turn
    [0, 0, 0, 0, 1, 0, 0, 0, 0]
    """

    __slots__ = (
        "_size",
        "_limit",
        "_points",
        "_thread",
        "_lock",
        "_handles",
        "_memory",
        "_causes",
        "_over",
        "_scores",
    )

    def __init__(
        self,
        count: int,
        size: int = 19,
        komi: Komi = 0,
        rule: KoRule = KoRule.SIMPLE,
        handicap: int = 0,
        limit: int = MOST_MOVES,
    ) -> None:
        if hasattr(self, "_lock"):
            raise RuntimeError("these Games were made before: make new ones")
        number = int_in_range(count, "count", 1, MOST_GAMES)
        first = Game(size, komi, rule)
        if integer(handicap, "handicap", "no int; use 0, or one from 2 to 9"):
            first.place_handicap(handicap)
        self._size, self._limit = first.size, int_in_range(limit, "limit", 1, MOST_MOVES)
        self._points = self._size * self._size
        self._thread, self._lock = get_ident(), threading.Lock()
        self._handles = (_declared.GameHandle * number)()
        self._causes, self._over = (ctypes.c_uint8 * number)(), (ctypes.c_uint8 * number)()
        self._scores = (ctypes.c_int32 * number)()
        self._allocate(number)
        for handle in self._handles:
            library.vintsaky_game_copy(ctypes.byref(handle), first._pointer())

    def _allocate(self, number: int) -> None:
        """Places the games in memory of their own, one after the other."""
        align: int = library.vintsaky_game_align()
        bytes_each: int = -(-library.vintsaky_game_bytes() // align) * align
        self._memory = ctypes.create_string_buffer(number * bytes_each + align)
        start = ctypes.addressof(self._memory)
        start += -start % align
        for at, handle in enumerate(self._handles):
            library.vintsaky_game_place(ctypes.byref(handle), start + at * bytes_each)

    @contextmanager
    def _in_call(self) -> Iterator[Tuple[Any, int]]:
        """Yields the handles and their number, for a call.

        Errors: RuntimeError in another thread than its own, and while a call runs.
        """
        if not self._lock.acquire(blocking=False):
            raise RuntimeError(BUSY)
        try:
            if get_ident() != self._thread:
                used = "these Games are used by another thread than their own"
                raise RuntimeError(f"{used}: adopt() takes them over")
            yield self._handles, len(self._handles)
        finally:
            self._lock.release()

    def adopt(self) -> None:
        """From now on this thread may use the games, and no other thread.

        Errors: RuntimeError while a call runs.
        """
        if not self._lock.acquire(blocking=False):
            raise RuntimeError(BUSY)
        self._thread = get_ident()
        self._lock.release()

    def __len__(self) -> int:
        return len(self._handles)

    @property
    def size(self) -> int:
        """The number of columns, and of rows, of each board."""
        return self._size

    @property
    def limit(self) -> int:
        """The number of moves with which a game is over."""
        return self._limit

    def planes(self, earlier: int = 0) -> int:
        """Returns how many planes a game has, with this many earlier boards: two for each board."""
        return 2 * (1 + int_in_range(earlier, "earlier", 0, MOST_MOVES))

    def step(
        self,
        moves: Any,
        *,
        causes: Any = None,
        over: Any = None,
        scores: Any = None,
        planes: Any = None,
        earlier: int = 0,
        masks: Any = None,
    ) -> int:
        """Plays a move in each game, and begins each game again that is over.

        Returns how many games rejected their move. The moves are a list of whole numbers, or an
        array of one dimension. `step` writes into the buffers that you give, in this order:

        - `causes`, one byte for each game: 0, or the number of the `Cause` for which this game
          rejected its move, and so is unchanged: OFF_BOARD for a number that is no move, FULL,
          OCCUPIED, SUICIDE or KO.
        - `over`, one byte for each game: 1 if it ended by two passes, 2 if it has `limit` moves or
          more, else 0.
        - `scores`, one float for each game: the score in points if it is over, positive if Black
          leads, else 0. A score above 2^23 is rounded to 32 bits.
        - `planes` and `masks`, of the games as they are afterwards, as `planes_into` and
          `masks_into` write them.

        Errors: TypeError and ValueError for wrong moves and buffers. Then no move is made.
        """
        earlier, numbers = int_in_range(earlier, "earlier", 0, MOST_MOVES), self._numbers(moves)
        given = {"causes": causes, "over": over, "scores": scores, "planes": planes, "masks": masks}
        buffers = self._buffers_of(given, earlier)
        with self._in_call() as (handles, _):
            refused = self._play(handles, numbers, buffers["causes"])
            self._restart(handles, buffers["over"], buffers["scores"])
            if buffer := buffers["planes"]:
                self._write_planes(handles, buffer, earlier)
            if buffer := buffers["masks"]:
                self._write_masks(handles, buffer)
            return refused

    def planes_into(self, planes: Any, earlier: int = 0) -> None:
        """Writes the planes of all games.

        In C order these are games, planes, rows from row 1, and columns from A. A game's first
        plane has 1 where the colour whose turn it is has a stone, and the second where the other
        one has, else 0. Then come the planes of the same colours for the board one move earlier,
        and so on. Planes of boards before the first one, which has the handicap stones, are empty.
        """
        buffer = buffer_of(planes, "planes", self._plane_shape(earlier))
        with self._in_call() as (handles, _):
            self._write_planes(handles, buffer, earlier)

    def masks_into(self, masks: Any) -> None:
        """Writes the masks of all games: size * size + 1 items for each game.

        An item is 1 if the colour whose turn it is may make the move of that number, else 0. The
        last one is for a pass, and always 1.
        """
        buffer = buffer_of(masks, "masks", self._mask_shape())
        with self._in_call() as (handles, _):
            self._write_masks(handles, buffer)

    def rollouts(self, seeds: Sequence[int], limit: int = MOST_MOVES) -> List[float]:
        """Returns the score of one playout of each game, in points.

        Each is what `Game.rollout` returns for the game's seed and the colour whose turn it is. The
        games are unchanged.
        """
        most = int_in_range(limit, "limit")
        try:
            given = list(seeds)
        except TypeError:
            wanted = "no list; use one with a number for each game"
            raise TypeError(f"seeds: {shown(seeds)} is {wanted}") from None
        numbers = [int_in_range(seed, "seeds", 0, 2**64 - 1) for seed in given]
        self._check_count(numbers, "seeds")
        halves = (ctypes.c_int32 * len(numbers))()
        with self._in_call() as (handles, count):
            words = (ctypes.c_uint64 * count)(*numbers)
            arguments = handles, count, words, count, most, halves, count
            check(unlocked.vintsaky_games_rollouts(*arguments))
        return [half / 2 for half in halves]

    def game(self, number: int) -> Game:
        """Returns a copy of the game with this number.

        Numbers count from 0, or from the end if they are negative.
        """
        copied = Game()
        with self._in_call() as (handles, _):
            one = handles[self._index_of(number)]
            library.vintsaky_game_copy(copied._pointer(), ctypes.byref(one))
        return copied

    def put(self, number: int, game: Game) -> None:
        """Makes the game with this number a copy of another one: of a new one, say.

        When it begins again, it keeps komi, ko rule and handicap. Errors: ValueError if the other
        one has another size, or is over.
        """
        if not isinstance(game, Game):
            raise TypeError(f"game: {shown(game)} is no Game")
        if game.size != self._size:
            raise ValueError(f"game: its size is {game.size}, and not {self._size}")
        if game.finished or len(game.moves) >= self._limit:
            raise ValueError(f"game: it is over, by two passes or with {self._limit} moves")
        with self._in_call() as (handles, _):
            one = handles[self._index_of(number)]
            library.vintsaky_game_copy(ctypes.byref(one), game._pointer())

    @property
    def turns(self) -> bytes:
        """One byte for each game: the colour whose turn it is."""
        with self._in_call() as (handles, _):
            return bytes(library.vintsaky_game_turn(ctypes.byref(handle)) for handle in handles)

    def _index_of(self, number: int) -> int:
        """Returns the index of a game from a number that may count from the end."""
        count = len(self._handles)
        index = integer(number, "number", f"no int; use one from 0 to {count - 1}")
        if not -count <= index < count:
            raise IndexError(f"number: {index} is not from {-count} to {count - 1}")
        return index % count

    def _plane_shape(self, earlier: int) -> Tuple[int, int, int, int]:
        """Returns the shape of the planes of all games."""
        return len(self._handles), self.planes(earlier), self._size, self._size

    def _mask_shape(self) -> Tuple[int, int]:
        """Returns the shape of the masks of all games."""
        return len(self._handles), self._points + 1

    def _numbers(self, moves: Any) -> Any:
        """Returns the numbers of the moves, as the call takes them.

        One that is too small or too large for the call becomes its largest, which is no move
        either. Errors: TypeError if they are no whole numbers.
        """
        try:
            given = list(map(operator.index, moves.tolist() if hasattr(moves, "tolist") else moves))
        except TypeError:
            wanted = "no list of whole numbers, or array of one dimension"
            raise TypeError(f"moves: {shown(moves)} is {wanted}") from None
        is_inside = not given or 0 <= min(given) and max(given) <= MOST_NUMBER
        numbers = array("I", given if is_inside else map(clamped, given))
        self._check_count(numbers, "moves")
        return (ctypes.c_uint32 * len(numbers)).from_buffer(numbers)

    def _check_count(self, values: Sequence[int], what: str) -> None:
        """Raises ValueError unless there is one of these for each game."""
        if len(values) != len(self):
            raise ValueError(f"{what}: there are {len(values)}, and not {len(self)}, one a game")

    def _buffers_of(self, given: Dict[str, Any], earlier: int) -> Dict[str, Optional[Buffer]]:
        """Returns the buffers of a step, by their names. Errors: those of `step`."""
        each = (len(self._handles),)
        buffers = {
            "causes": buffer_or_none(given["causes"], "causes", each, (BYTE,)),
            "over": buffer_or_none(given["over"], "over", each, (BYTE,)),
            "scores": buffer_or_none(given["scores"], "scores", each, (FLOAT,)),
            "planes": buffer_or_none(given["planes"], "planes", self._plane_shape(earlier)),
            "masks": buffer_or_none(given["masks"], "masks", self._mask_shape()),
        }
        check_disjoint(buffers)
        if given["planes"] is None and earlier:
            wanted = f"{earlier} boards are asked for, and no planes to write them into"
            raise ValueError(f"earlier: {wanted}")
        return buffers

    def _play(self, handles: Any, numbers: Any, causes: Optional[Buffer]) -> int:
        """Plays the moves. Returns how many are rejected."""
        count, written = len(handles), causes.items if causes else self._causes
        check(unlocked.vintsaky_games_play(handles, count, numbers, count, written, count))
        return count - bytes(written).count(0)

    def _restart(self, handles: Any, over: Optional[Buffer], scores: Optional[Buffer]) -> None:
        """Begins the games again that are over."""
        count, ways = len(handles), over.items if over else self._over
        written_to = ways, count, self._scores, count
        check(unlocked.vintsaky_games_restart(handles, count, self._limit, *written_to))
        if scores:
            scores.items[:] = [half / 2 for half in self._scores]

    def _write_planes(self, handles: Any, buffer: Buffer, earlier: int) -> None:
        """Writes the planes of all games."""
        bytes_call, float_call = unlocked.vintsaky_games_planes, unlocked.vintsaky_games_planes_f32
        call = float_call if buffer.is_float else bytes_call
        check(call(handles, len(handles), earlier, buffer.items, len(buffer.items)))

    def _write_masks(self, handles: Any, buffer: Buffer) -> None:
        """Writes the masks of all games."""
        call = (
            unlocked.vintsaky_games_masks_f32 if buffer.is_float else unlocked.vintsaky_games_masks
        )
        check(call(handles, len(handles), buffer.items, len(buffer.items)))

    def __repr__(self) -> str:
        return f"<vintsaky.Games: {len(self)} of size {self._size}>"

    def __reduce_ex__(self, protocol: Any) -> NoReturn:
        raise TypeError(
            "Games can't be copied or pickled: `game` returns a copy of one of them, which can"
        )
