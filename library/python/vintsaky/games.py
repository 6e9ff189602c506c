"""Games: the rules, the record and the board."""
from __future__ import annotations

import ctypes
from copy import deepcopy
from functools import partial
from pickle import UnpicklingError
from typing import Any, Dict, Iterable, List, NamedTuple, Optional, Tuple, Type, TypeVar

from . import _declared
from ._attributes import attributes_of, give_attributes
from ._buffers import BYTE, FLAG, buffer_of
from ._objects import LibraryObject, clamped, integer, int_in_range
from ._library import library, text_of
from ._numbers import Cause
from ._refused import Refused, check, shown
from .moves import Moves, moves_by_text, play_numbered, text_of_move
from .values import POINTS, VERTICES, AnyColour, AnyVertex, Colour, Komi, KoRule, Point, Vertex
from .values import colour_number, half_points, refused_point, rule_number, shown_vertex
from .values import size_number, vertex_number

MOST_POINTS = 625  # of the largest board
MOST_WORD = 2**64 - 1
ILLEGAL = (Cause.OFF_BOARD, Cause.OCCUPIED, Cause.SUICIDE, Cause.KO)
Kind = TypeVar("Kind", bound="Game")


class Chain(NamedTuple):
    """How many stones and how many liberties a chain has."""

    stones: int
    liberties: int


class Game(LibraryObject):
    """A game: its board, its record, its komi and its ko rule.

    Colours and vertices may be given as text.

    A call that is rejected raises Refused and leaves the game unchanged. If a text spells no colour
    or vertex, the error is BAD_TEXT.

    >>> game = Game(size=5, komi=0.5)
    >>> game.play("b", "C3")
    >>> game.play("w", "C4")
    >>> game["C3"], game["D3"]
    (<Colour.BLACK: 1>, None)
    >>> game.why_not("w", "C3")
    <Cause.OCCUPIED: 10>
    >>> len(game.moves), str(game.moves[-1].vertex)
    (2, 'C4')
    """

    __slots__ = ()
    _kind = "game"
    _handle_type = _declared.GameHandle

    def __init__(self, size: int = 19, komi: Komi = 0, rule: KoRule = KoRule.SIMPLE) -> None:
        super().__init__()
        self.begin(size, komi, rule)

    def begin(self, size: int = 19, komi: Komi = 0, rule: KoRule = KoRule.SIMPLE) -> None:
        """Resets the game to an empty board. Errors: BAD_RULE, BAD_SIZE or BAD_KOMI."""
        numbers = rule_number(rule), size_number(size), half_points(komi)
        check(library.vintsaky_game_begin(self._pointer(), *numbers))

    @classmethod
    def from_moves(
        cls: Type[Kind],
        moves: Iterable[Tuple[AnyColour, AnyVertex]],
        size: int = 19,
        komi: Komi = 0,
        rule: KoRule = KoRule.SIMPLE,
        handicap: int = 0,
    ) -> Kind:
        """Returns a game with these moves, each a colour and a vertex, as `play` takes them.

        `handicap` is the number of stones that are placed before the moves, or 0. For a subclass,
        `__init__` is called with the keywords `size`, `komi` and `rule`. Errors: those of `begin`,
        `place_handicap` and `play`; for a move with its number, from 1.

        >>> game = Game.from_moves([("b", "C3"), ("w", "pass")], size=5)
        >>> Game.from_moves(game.moves, size=5) == game
        True
        """
        if not isinstance(moves, Iterable):
            raise TypeError(f"moves: {shown(moves)} is no list of moves")
        game = cls(size=size, komi=komi, rule=rule)
        if integer(handicap, "handicap", "no int; use 0, or one from 2 to 9"):
            game.place_handicap(handicap)
        for number, move in enumerate(moves, 1):
            play_numbered(game.play, number, move)
        return game

    def copy(self: Kind) -> Kind:
        """Returns an independent copy.

        The copy of a subclass's game has the same attributes, and `__init__` isn't called for it.
        If another thread is to use the copy, that thread has to call its `adopt`.
        """
        return self.__copy__()

    def become(self, other: Game) -> None:
        """Makes this game a copy of another one. Given itself, it is unchanged."""
        if not isinstance(other, Game):
            raise TypeError(f"other: {shown(other)} is no Game")
        if other is not self:
            library.vintsaky_game_copy(self._pointer(), other._pointer())

    def __copy__(self: Kind) -> Kind:
        copied = new_game(type(self))
        library.vintsaky_game_copy(copied._pointer(), self._pointer())
        if type(self) is not Game:
            give_attributes(copied, self.__getstate__())
        return copied

    def __deepcopy__(self: Kind, memory: Dict[int, Any]) -> Kind:
        copied = new_game(type(self))
        library.vintsaky_game_copy(copied._pointer(), self._pointer())
        memory[id(self)] = copied  # before its attributes, since they may lead back to it
        if type(self) is not Game:
            give_attributes(copied, deepcopy(self.__getstate__(), memory))
        return copied

    def __reduce_ex__(self, protocol: Any) -> Any:
        game = new_game(Game)
        library.vintsaky_game_copy(game._pointer(), self._pointer_to_copy())
        moves = ", ".join(map(text_of_move, game.moves))
        setup = type(self), game.size, game.komi, int(game.rule), game.handicap, moves
        return unpickled, setup, self.__getstate__()

    def __getstate__(self) -> Any:
        # what a copy and a pickle have of a subclass, which may have its own
        return attributes_of(self)

    def __eq__(self, other: object) -> bool:
        """Returns whether the other is a game with equal size, komi, rule, handicap and moves."""
        if not isinstance(other, Game):
            return NotImplemented
        if self is other:
            return True
        return self._setup() == other._setup() and list(self.moves) == list(other.moves)

    def _setup(self) -> Tuple[Any, ...]:
        """Returns what is compared before the moves are. Equal games have equal boards."""
        return self.size, self.komi, self.rule, self.handicap, len(self.moves), self.board_hash

    @property
    def size(self) -> int:
        """The number of columns, and of rows, of the board."""
        size: int = library.vintsaky_game_size(self._pointer())
        return size

    @property
    def rule(self) -> KoRule:
        """The ko rule."""
        return KoRule(library.vintsaky_game_rule(self._pointer()))

    @property
    def komi(self) -> float:
        """The komi in points, a multiple of 0.5, which a float has exactly.

        It can be set to an int, a float or a Fraction; board and record are unchanged. Errors:
        BAD_KOMI.
        """
        halves: int = library.vintsaky_game_komi(self._pointer())
        return halves / 2

    @komi.setter
    def komi(self, komi: Komi) -> None:
        check(library.vintsaky_game_set_komi(self._pointer(), half_points(komi)))

    @property
    def handicap(self) -> int:
        """The number of handicap stones that were placed, or 0."""
        stones: int = library.vintsaky_game_handicap(self._pointer())
        return stones

    def place_handicap(self, stones: int) -> None:
        """Places handicap stones on their fixed points. Errors: NOT_EMPTY or BAD_HANDICAP."""
        number = integer(stones, "stones", "no int; use one from 2 to 9")
        cause = library.vintsaky_game_place_handicap(self._pointer(), clamped(number))
        if cause == Cause.BAD_HANDICAP:
            raise Refused(Cause.BAD_HANDICAP, f"handicap {shown(stones)} on size {self.size}")
        check(cause, "place_handicap")

    @property
    def moves(self) -> Moves:
        """The moves of the record."""
        return Moves(self)

    @property
    def turn(self) -> Colour:
        """The colour whose turn it is: the one that didn't make the last move.

        Before the first move it is Black, or White if handicap stones were placed.
        """
        return Colour(library.vintsaky_game_turn(self._pointer()))

    def play(self, colour: AnyColour, vertex: AnyVertex) -> None:
        """Plays a move. Errors: BAD_COLOUR, BAD_VERTEX, FULL, OFF_BOARD, OCCUPIED, SUICIDE, KO."""
        number, point = colour_number(colour), vertex_number(vertex)
        cause = library.vintsaky_game_play(self._pointer(), number, point)
        if cause:
            raise Refused(Cause(cause), f"play {Colour(number)} {shown_vertex(point)}")

    def undo(self) -> None:
        """Undoes the last move. Errors: NOTHING_TO_UNDO."""
        check(library.vintsaky_game_undo(self._pointer()), "undo")

    def why_not(self, colour: AnyColour, vertex: AnyVertex) -> Optional[Cause]:
        """Returns why a move of a colour would be illegal: OFF_BOARD, OCCUPIED, SUICIDE or KO.

        Returns None if it would be legal, even if the record is full. Errors: BAD_COLOUR or
        BAD_VERTEX.
        """
        number, point = colour_number(colour), vertex_number(vertex)
        cause = library.vintsaky_game_legal(self._pointer(), number, point)
        if not cause:
            return None
        if cause in ILLEGAL:
            return Cause(cause)
        raise Refused(Cause(cause))

    def legal(self, colour: AnyColour, vertex: AnyVertex) -> bool:
        """Returns whether a colour may make a move next. If not, `why_not` says why."""
        return self.why_not(colour, vertex) is None

    def legal_points(self, colour: AnyColour) -> List[Point]:
        """Returns the points where a colour may play next, row by row from A1.

        It doesn't matter whether the record is full. Errors: BAD_COLOUR.
        """
        return self._points_of(library.vintsaky_game_legal_points, colour_number(colour))

    def _points_of(self, call: Any, number: int, what: str = "") -> List[Point]:
        """Returns the points that this call lists for a number. An error for a point has `what`."""
        points, count = (ctypes.c_uint32 * MOST_POINTS)(), ctypes.c_size_t()
        cause = call(self._pointer(), number, points, MOST_POINTS, ctypes.byref(count))
        if cause:
            raise refused_point(cause, what, number)
        return [POINTS[point] for point in points[: count.value]]

    @property
    def taken(self) -> List[Point]:
        """The points whose stones the last move captured, row by row from A1."""
        points = (ctypes.c_uint32 * MOST_POINTS)()
        count: int = library.vintsaky_game_taken_by_last_move(self._pointer(), points, MOST_POINTS)
        return [POINTS[point] for point in points[:count]]

    def __getitem__(self, point: AnyVertex) -> Optional[Colour]:
        """Returns the colour of the stone on a point, or None.

        Errors: BAD_VERTEX, also for a pass, or OFF_BOARD.
        """
        colour = ctypes.c_uint32()
        number = vertex_number(point, "point")
        cause = library.vintsaky_game_stone_at(self._pointer(), number, ctypes.byref(colour))
        if cause:
            raise refused_point(cause, "point", number)
        return Colour(colour.value) if colour.value else None

    __iter__ = None  # a game has both a board and a record: iterate over `legal_points` or `moves`
    __contains__ = None

    def chain(self, point: AnyVertex) -> Chain:
        """Returns the chain of the stone on a point.

        Errors: BAD_VERTEX, also for a pass, OFF_BOARD or NO_STONE.
        """
        stones, liberties = ctypes.c_uint32(), ctypes.c_uint32()
        number = vertex_number(point, "point")
        counts = ctypes.byref(stones), ctypes.byref(liberties)
        cause = library.vintsaky_game_chain(self._pointer(), number, *counts)
        if cause:
            raise refused_point(cause, "chain", number)
        return Chain(stones.value, liberties.value)

    def chain_points(self, point: AnyVertex) -> List[Point]:
        """Returns the stones of a chain, row by row from A1. Errors: those of `chain`."""
        number = vertex_number(point, "point")
        return self._points_of(library.vintsaky_game_chain_points, number, "chain_points")

    def chain_liberties(self, point: AnyVertex) -> List[Point]:
        """Returns the liberties of a chain, row by row from A1. Errors: those of `chain`."""
        number = vertex_number(point, "point")
        return self._points_of(library.vintsaky_game_chain_liberties, number, "chain_liberties")

    def index(self, point: AnyVertex) -> int:
        """Returns the index of a point, for lists with one value for each point.

        It is counted from 0 in board order: row by row from A1. Errors: BAD_VERTEX, also for a
        pass, or OFF_BOARD.

        >>> Game(5).index("A2")
        5
        """
        index = ctypes.c_size_t()
        number = vertex_number(point, "point")
        cause = library.vintsaky_game_index(self._pointer(), number, ctypes.byref(index))
        if cause:
            raise refused_point(cause, "index", number)
        return index.value

    def point(self, index: int) -> Point:
        """Returns the point with an index. Errors: OFF_BOARD if the board has no such index."""
        vertex = ctypes.c_uint32()
        number = int_in_range(index, "index", 0, self.size**2 - 1, Cause.OFF_BOARD)
        check(library.vintsaky_game_point_at(self._pointer(), number, ctypes.byref(vertex)))
        return POINTS[vertex.value]

    @property
    def board(self) -> bytes:
        r"""One byte for each point, in board order: the colour of its stone, or 0 if it is empty.

        >>> game = Game(size=2)
        >>> game.play("w", "B1")
        >>> game.board
        b'\x00\x02\x00\x00'
        """
        stones = (ctypes.c_uint8 * MOST_POINTS)()
        count: int = library.vintsaky_game_board(self._pointer(), stones, MOST_POINTS)
        return bytes(stones[:count])

    def legal_mask(self, colour: AnyColour) -> bytes:
        """Returns one byte for each point, in board order: 1 where a colour may play next, else 0.

        It doesn't matter whether the record is full. Errors: BAD_COLOUR.
        """
        marks, count = (ctypes.c_uint8 * MOST_POINTS)(), ctypes.c_size_t()
        written_to = marks, MOST_POINTS, ctypes.byref(count)
        number = colour_number(colour)
        check(library.vintsaky_game_legal_mask(self._pointer(), number, *written_to))
        return bytes(marks[: count.value])

    def board_into(self, board: Any) -> None:
        """Writes what `board` returns into a buffer of size * size bytes (format `B`)."""
        buffer = buffer_of(board, "board", (self.size, self.size), (BYTE,))
        library.vintsaky_game_board(self._pointer(), buffer.items, len(buffer.items))

    def legal_into(self, colour: AnyColour, mask: Any) -> None:
        """Writes `legal_mask` into a buffer of size * size items (`B`, `?`). Errors: BAD_COLOUR."""
        buffer = buffer_of(mask, "mask", (self.size, self.size), (BYTE, FLAG))
        written_to = buffer.items, len(buffer.items), ctypes.byref(ctypes.c_size_t())
        number = colour_number(colour)
        check(library.vintsaky_game_legal_mask(self._pointer(), number, *written_to))

    def is_own_eye(self, colour: AnyColour, point: AnyVertex) -> bool:
        """Returns whether a point is an own eye of a colour, which a playout doesn't fill.

        An own eye is empty, and all its neighbours are stones of the colour. The other colour has a
        stone on at most one of its diagonals, and on none if the point is on the edge. Errors:
        BAD_COLOUR, BAD_VERTEX, also for a pass, or OFF_BOARD.
        """
        holds = ctypes.c_uint32()
        number, vertex = colour_number(colour), vertex_number(point, "point")
        cause = library.vintsaky_game_is_own_eye(
            self._pointer(), number, vertex, ctypes.byref(holds)
        )
        if cause:
            raise refused_point(cause, "is_own_eye", vertex)
        return bool(holds.value)

    def ko_point(self, colour: AnyColour) -> Optional[Point]:
        """Returns the empty point where ko forbids a play, or None. Errors: BAD_COLOUR.

        A play of the colour there would bring back the board before the last move.
        """
        number, vertex = colour_number(colour), ctypes.c_uint32()
        check(library.vintsaky_game_ko_point(self._pointer(), number, ctypes.byref(vertex)))
        return POINTS[vertex.value] if vertex.value else None

    def position_hash(self, colour: AnyColour) -> int:
        """Returns a hash of the position with a colour to move.

        It is one of the board, its size, that colour and its ko point. Positions that are equal in
        these have equal hashes. So different hashes show a difference; equal hashes show nothing.
        The hash leaves out the komi, the ko rule, whether the last move was a pass, and the record,
        on which positional superko depends. Errors: BAD_COLOUR.
        """
        number, found = colour_number(colour), ctypes.c_uint64()
        check(library.vintsaky_game_position_hash(self._pointer(), number, ctypes.byref(found)))
        return found.value

    def playout(self, colour: AnyColour, seed: int, limit: int = 2000) -> None:
        """Plays on at random: this colour first, and then both in turn.

        Each plays a random one of the points where it may play and that aren't its own eyes, and
        passes if there is none. The playout ends after two passes in a row (a pass just before it
        counts), after `limit` moves, or when the record has 2,000 moves. The same game, colour,
        seed (of 64 bits) and limit always make the same moves. Errors: BAD_COLOUR.
        """
        numbers = playout_numbers(colour, seed, limit)
        check(library.vintsaky_game_playout(self._pointer(), *numbers))

    def rollout(self, colour: AnyColour, seed: int, limit: int = 2000) -> float:
        """Returns the score after such a `playout`. The game is unchanged. Errors: BAD_COLOUR."""
        numbers, halves = playout_numbers(colour, seed, limit), ctypes.c_int32()
        check(library.vintsaky_game_rollout(self._pointer(), *numbers, ctypes.byref(halves)))
        return halves.value / 2

    def random_move(self, colour: AnyColour, word: int) -> Vertex:
        """Returns the move that a random word of 64 bits chooses, even if the record is full.

        Of the n points where the colour may play next and that aren't its own eyes, this is number
        `word` mod n, counted from 0 in board order, or PASS if there are none. Each of the first
        2^64 mod n points is chosen by one word more than each of the others, a bias that you can
        neglect. Errors: BAD_COLOUR.
        """
        vertex = ctypes.c_uint32()
        number, word = colour_number(colour), int_in_range(word, "word", 0, MOST_WORD)
        check(
            library.vintsaky_game_random_move(self._pointer(), number, word, ctypes.byref(vertex))
        )
        return VERTICES[vertex.value]

    def captured(self, colour: AnyColour) -> int:
        """Returns how many stones a colour has captured. Errors: BAD_COLOUR."""
        number, stones = colour_number(colour), ctypes.c_uint32()
        check(library.vintsaky_game_captured(self._pointer(), number, ctypes.byref(stones)))
        return stones.value

    @property
    def score(self) -> float:
        """The area score in points after komi, every stone alive.

        It is a multiple of 0.5, and positive if Black leads.
        """
        halves: int = library.vintsaky_game_score(self._pointer())
        return halves / 2

    @property
    def finished(self) -> bool:
        """Whether the last two moves are passes."""
        finished: bool = library.vintsaky_game_finished(self._pointer())
        return finished

    @property
    def board_hash(self) -> int:
        """A hash of the board and its size.

        Equal boards of one size have equal hashes. So different hashes show that board or size
        differ; equal hashes show nothing.
        """
        number: int = library.vintsaky_game_hash(self._pointer())
        return number

    def __str__(self) -> str:
        """Returns the board as text."""
        return text_of(library.vintsaky_game_board_text, self._pointer()).decode("ascii")

    def __repr__(self) -> str:
        return f"<vintsaky.Game of size {self.size} with {len(self.moves)} moves>"


def playout_numbers(colour: AnyColour, seed: int, limit: int) -> Tuple[int, int, int]:
    """Returns the numbers of a playout, for a call."""
    word = int_in_range(seed, "seed", 0, MOST_WORD)
    return colour_number(colour), word, int_in_range(limit, "limit")


# ---- how games are made


def new_game(kind: Type[Kind]) -> Kind:
    """Returns a new game of this class, for which neither `__new__` nor `__init__` is called."""
    game = object.__new__(kind)
    LibraryObject.__init__(game)
    return game


def unpickled(kind: Any, size: Any, komi: Any, rule: Any, handicap: Any, moves: Any) -> Any:
    """Returns the game of a pickle.

    Everything in it is checked: the game is played again, and belongs to the thread that uses it
    first. Errors: UnpicklingError if there can't be such a game.
    """
    if not (isinstance(kind, type) and issubclass(kind, Game) and isinstance(moves, str)):
        raise UnpicklingError(
            f"the pickle of a Game is damaged: {shown(kind)} is no Game, or {shown(moves)} no moves"
        )
    game, known = new_game(kind), moves_by_text()
    try:
        Game.begin(game, size, komi, rule)
        if integer(handicap, "handicap", "no int"):
            Game.place_handicap(game, handicap)
        for number, text in enumerate(moves.split(", ") if moves else [], 1):
            play_numbered(partial(Game.play, game), number, known.get(text) or text.split(" "))
    except (TypeError, ValueError) as problem:
        raise UnpicklingError(f"the pickle of a Game is damaged: {problem}") from None
    game._release()
    return game
