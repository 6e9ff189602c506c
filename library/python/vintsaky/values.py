"""Colours, vertices and komis, and their texts."""
from __future__ import annotations

import ctypes
import math
from enum import Enum, IntEnum
from fractions import Fraction
from functools import lru_cache
from typing import Any, Dict, Final, List, Literal, NamedTuple, Tuple, Union

from . import _declared
from ._objects import ascii_of, integer, int_in_range
from ._library import library
from ._numbers import Cause
from ._refused import Refused, check, shown


class Colour(IntEnum):
    """The colour of a stone, and of the side that plays it."""

    BLACK = _declared.BLACK
    WHITE = _declared.WHITE

    @property
    def other(self) -> Colour:
        """The other colour."""
        return Colour.WHITE if self is Colour.BLACK else Colour.BLACK

    @property
    def text(self) -> str:
        """The colour as the protocol spells it: b or w."""
        return COLOUR_TEXTS[self]

    def __str__(self) -> str:
        return self.text

    def __format__(self, spec: str) -> str:
        return format(self.text, spec)


BLACK = Colour.BLACK
WHITE = Colour.WHITE


class KoRule(IntEnum):
    """The boards that a play must not bring back.

    It is the one before the last move, or with POSITIONAL any earlier one.
    """

    SIMPLE = _declared.SIMPLE
    POSITIONAL = _declared.POSITIONAL


class Point(NamedTuple):
    """A point: its column and its row, both from 1 to 25, counted from the lower left corner.

    `str` returns its text.

    >>> str(Point(4, 16))
    'D16'
    """

    column: int
    row: int

    def __str__(self) -> str:
        return written(library.vintsaky_vertex_text, _point_number(self))

    def neighbours(self, size: int) -> List[Point]:
        """Returns the neighbours of the point on a board of this size. Errors: BAD_SIZE.

        >>> [str(point) for point in Point(1, 3).neighbours(5)]
        ['A2', 'B3', 'A4']
        """
        if type(size) is not int or not 1 <= size <= 25:
            size = size_number(size)
        column, row = self
        adjacent = [
            Point(column, row - 1),
            Point(column - 1, row),
            Point(column + 1, row),
            Point(column, row + 1),
        ]
        return [point for point in adjacent if 1 <= point.column <= size and 1 <= point.row <= size]

    def turned(self, size: int, symmetry: int) -> Point:
        """Returns where a symmetry of a board of this size puts the point.

        0 to 3 are that many quarter turns to the left; 4 to 7 swap left and right first, and then
        make symmetry - 4 such turns. Errors: BAD_VERTEX, BAD_SIZE or OFF_BOARD; ValueError if the
        symmetry isn't from 0 to 7.

        >>> [str(Point(1, 2).turned(9, symmetry)) for symmetry in range(8)]
        ['A2', 'H1', 'J8', 'B9', 'J2', 'H9', 'A8', 'B1']
        """
        _point_number(self)
        size, symmetry = size_number(size), symmetry_number(symmetry)
        if max(self) > size:
            raise Refused(Cause.OFF_BOARD, f"turned {self}")
        column, row = (self.column if symmetry < 4 else size + 1 - self.column), self.row
        for _ in range(symmetry % 4):
            column, row = size + 1 - row, column
        return Point(column, row)


class NoPoint(Enum):
    """A choice that isn't a point. Only an engine resigns."""

    PASS = "pass"
    RESIGN = "resign"

    def __str__(self) -> str:
        return self.value


PASS: Final = NoPoint.PASS
RESIGN: Final = NoPoint.RESIGN

Vertex = Union[Point, Literal[NoPoint.PASS]]
AnyColour = Union[Colour, int, str, bytes]
AnyVertex = Union[Point, Literal[NoPoint.PASS], Tuple[int, int], str, bytes]
AnyChoice = Union[Point, NoPoint, Tuple[int, int], str, bytes]
Komi = Union[int, float, Fraction]

POINTS: Dict[int, Point] = {
    row << 8 | column: Point(column, row) for row in range(1, 26) for column in range(1, 26)
}
VERTICES: Dict[int, Vertex] = {_declared.PASS: PASS, **POINTS}


def written(call: Any, *arguments: Any, what: str = "") -> str:
    """Returns the text that this call writes. If it is rejected, the error names `what`."""
    length = 256
    while True:
        text = ctypes.create_string_buffer(length)
        count = ctypes.c_size_t()
        check(call(*arguments, text, length, ctypes.byref(count)), what)
        if count.value < length:
            return text.raw[: count.value].decode("ascii")
        length = count.value + 1


COLOUR_TEXTS = {colour: written(library.vintsaky_colour_text, int(colour)) for colour in Colour}
COLOURS = "use 'b', 'w', 'black', 'white' or a Colour"
HINTS = {
    "vertex": "use a Point, PASS, or a text such as 'D4' or 'pass'",
    "point": "use a Point or a text such as 'D4'",
    "choice": "use a Point, PASS, RESIGN, or a text such as 'D4', 'pass' or 'resign'",
}
MOST_KOMI = 999_999_999.5  # points


def colour_number(colour: AnyColour, what: str = "colour") -> int:
    """Returns the number of a colour. Errors: BAD_COLOUR, or BAD_TEXT for text."""
    if type(colour) is Colour:
        return colour
    if isinstance(colour, (str, bytes)):
        return _read(
            library.vintsaky_read_colour, ctypes.c_uint32(), colour, what, f"no colour; {COLOURS}"
        )
    number = integer(colour, what, f"no colour; {COLOURS}")
    if number not in (_declared.BLACK, _declared.WHITE):
        raise Refused(Cause.BAD_COLOUR, what, f"{shown(colour)} is no colour; {COLOURS}")
    return number


def vertex_number(vertex: AnyChoice, what: str = "vertex") -> int:
    """Returns the number of a vertex, which may be given as text.

    Errors call it a vertex, a point or a choice. Errors: BAD_VERTEX, or BAD_TEXT for text.
    """
    if type(vertex) is Point:  # the fastest way, since this comes most often
        column, row = vertex
        if type(column) is int and type(row) is int and 1 <= column <= 25 and 1 <= row <= 25:
            return row << 8 | column
    if vertex is PASS:
        return _declared.PASS
    wanted = f"no {what}; {HINTS[what]}"
    if isinstance(vertex, (str, bytes)):
        return _read(library.vintsaky_read_vertex, ctypes.c_uint32(), vertex, what, wanted)
    if vertex is RESIGN:
        said = f"no move on a board; {HINTS[what]}" if what == "vertex" else wanted
        raise Refused(Cause.BAD_VERTEX, what, f"RESIGN is {said}")
    if not isinstance(vertex, tuple) or len(vertex) != 2:
        raise TypeError(f"{what}: {shown(vertex)} is {wanted}")
    return _point_number(vertex, what)


def _point_number(point: Tuple[Any, Any], what: str = "") -> int:
    """Returns the number of the point at a column and a row."""
    named = f"{what}: {shown(point)}" if what else shown(point)
    for name, value in zip(("column", "row"), point):
        if not hasattr(type(value), "__index__"):
            raise TypeError(f"{named}: a {name} is an int from 1 to 25")
        if not 1 <= value <= 25:
            raise Refused(Cause.BAD_VERTEX, named, f"a {name} is from 1 to 25")
    number = ctypes.c_uint32()
    check(library.vintsaky_point(point[0], point[1], ctypes.byref(number)))
    return number.value


def choice_number(choice: AnyChoice) -> int:
    """Returns the number of a choice: a vertex, or a resignation."""
    text = choice.decode("ascii", "replace") if isinstance(choice, bytes) else choice
    if choice is RESIGN or isinstance(text, str) and text.lower() == "resign":
        return _declared.RESIGN
    return vertex_number(choice, "choice")


def shown_vertex(number: int) -> str:
    """Returns the vertex of a number, or a resignation, as the protocol spells it."""
    return str(VERTICES.get(number, RESIGN))


def refused_point(cause: int, call: str, number: int) -> Refused:
    """Returns the error for a point that a call of this name rejects."""
    if cause == Cause.BAD_VERTEX:
        return Refused(Cause.BAD_VERTEX, "point", f"PASS is no point; {HINTS['point']}")
    return Refused(Cause(cause), f"{call} {shown_vertex(number)}")


def size_number(size: int) -> int:
    """Returns the size of a board. Errors: BAD_SIZE."""
    return int_in_range(size, "size", 1, 25, Cause.BAD_SIZE)


def rule_number(rule: int) -> int:
    """Returns the number of a ko rule. Errors: BAD_RULE."""
    wanted = "no ko rule; use KoRule.SIMPLE or KoRule.POSITIONAL"
    number = integer(rule, "rule", wanted)
    if number not in (_declared.SIMPLE, _declared.POSITIONAL):
        raise Refused(Cause.BAD_RULE, "rule", f"{shown(rule)} is {wanted}")
    return number


def symmetry_number(symmetry: int) -> int:
    """Returns the number of a symmetry of the board."""
    return int_in_range(symmetry, "symmetry", 0, 7)


def inverse_symmetry(symmetry: int) -> int:
    """Returns the symmetry that undoes this one.

    After both, in either order, each point is where it was.

    >>> Point(1, 2).turned(9, 1).turned(9, inverse_symmetry(1)) == Point(1, 2)
    True
    """
    number = symmetry_number(symmetry)
    return number if number >= 4 else -number % 4


def symmetry_map(size: int, symmetry: int) -> Tuple[int, ...]:
    """Returns for each point of the turned board, in board order, its index before the turn.

    So the plane of a turned board is `[plane[index] for index in symmetry_map(size, symmetry)]`. A
    single index, such as the number of a move, becomes `symmetry_map(size,
    inverse_symmetry(symmetry))[index]`. Errors: BAD_SIZE; ValueError if the symmetry isn't 0 to 7.

    >>> symmetry_map(2, 1)  # A1, whose index is 0, comes to B1
    (2, 0, 3, 1)
    """
    return _map(size_number(size), inverse_symmetry(symmetry))


@lru_cache(maxsize=None)
def _map(size: int, symmetry: int) -> Tuple[int, ...]:
    """Returns the index to which each point of the board moves."""
    board = range(1, size + 1)
    turned = [Point(column, row).turned(size, symmetry) for row in board for column in board]
    return tuple((row - 1) * size + column - 1 for column, row in turned)


def _read(call: Any, number: Any, text: Union[str, bytes], what: str, wanted: str) -> int:
    """Returns the number that this call reads from text."""
    data = ascii_of(text, what)
    if call(data, len(data), ctypes.byref(number)):
        raise Refused(Cause.BAD_TEXT, what, f"{shown(text)} is {wanted}")
    read: int = number.value
    return read


def read_colour(text: Union[str, bytes]) -> Colour:
    """Reads a colour: b, w, black or white, in upper or lower case or a mix of both.

    >>> read_colour("White").other
    <Colour.BLACK: 1>
    """
    wanted = "no colour; use 'b', 'w', 'black' or 'white'"
    return Colour(_read(library.vintsaky_read_colour, ctypes.c_uint32(), text, "text", wanted))


def read_vertex(text: Union[str, bytes]) -> Vertex:
    """Reads a vertex as the protocol spells it.

    >>> read_vertex("j9"), read_vertex("pass")
    (Point(column=9, row=9), <NoPoint.PASS: 'pass'>)
    """
    wanted = "no vertex; use one such as 'D4' or 'pass'"
    return VERTICES[_read(library.vintsaky_read_vertex, ctypes.c_uint32(), text, "text", wanted)]


def vertex_text(vertex: AnyVertex) -> str:
    """Returns a vertex as the protocol spells it."""
    return written(library.vintsaky_vertex_text, vertex_number(vertex))


def half_points(komi: Komi, what: str = "komi") -> int:
    """Returns a komi in points as half points.

    Errors: TypeError if it is no number, ValueError if it is no multiple of 0.5, and Refused with
    BAD_KOMI if it is out of range.
    """
    if not isinstance(komi, (int, float, Fraction)):
        raise TypeError(
            f"{what}: {shown(komi)} is a {type(komi).__name__}, and no int, float or Fraction"
        )
    is_infinite = isinstance(komi, float) and math.isinf(komi)
    if komi != komi or not is_infinite and Fraction(komi).denominator > 2:
        raise ValueError(f"{what}: {shown(komi)} is no multiple of 0.5")
    if is_infinite or not -MOST_KOMI <= komi <= MOST_KOMI:
        raise Refused(
            Cause.BAD_KOMI, what, f"{shown(komi)} is not from -{MOST_KOMI} to {MOST_KOMI}"
        )
    return int(komi * 2)


def read_komi(text: Union[str, bytes]) -> float:
    """Reads a komi, in points.

    >>> read_komi("+6.50")
    6.5
    """
    wanted = "no komi; use one such as '6.5' or '-7'"
    return _read(library.vintsaky_read_komi, ctypes.c_int32(), text, "text", wanted) / 2


def komi_text(komi: Komi) -> str:
    """Returns a komi as the protocol spells it.

    >>> komi_text(7), komi_text(-0.5)
    ('7', '-0.5')
    """
    return written(library.vintsaky_komi_text, half_points(komi))
