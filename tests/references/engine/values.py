"""The values of the Go Text Protocol (GTP), and how they are spelled: docs/protocol.md in Python.

Texts are bytes. A point is a pair (column, row), both counted from 1 at A1, the lower left corner.
Komi is a whole number of half points.
"""
from __future__ import annotations

import re
from enum import Enum
from typing import Final, Literal, Optional, Tuple, Union


class Word(str, Enum):
    """A value that is one of few words, and is written as this word."""

    def __str__(self) -> str:
        return self.value


class Colour(Word):
    """The colour of a stone, and the side that plays it."""

    BLACK = "black"
    WHITE = "white"


class NoPoint(Word):
    """What a player may choose in place of a point."""

    PASS = "pass"
    RESIGN = "resign"


BLACK: Final = Colour.BLACK
WHITE: Final = Colour.WHITE
PASS: Final = NoPoint.PASS
RESIGN: Final = NoPoint.RESIGN

Point = Tuple[int, int]
Vertex = Union[Point, Literal[NoPoint.PASS]]
Choice = Union[Point, NoPoint]

COLUMNS = b"ABCDEFGHJKLMNOPQRSTUVWXYZ"
GREATEST_INT = 2147483647


def other(colour: Colour) -> Colour:
    """Returns the other colour."""
    return WHITE if colour == BLACK else BLACK


def read_int(text: bytes) -> Optional[int]:
    """Returns the int that this text spells, or None.

    An int is one digit or more and nothing else, of a value up to 2,147,483,647; leading zeros are
    allowed. (The standard, simple entities: int.)
    """
    if not re.fullmatch(rb"[0-9]+", text) or int(text) > GREATEST_INT:
        return None
    return int(text)


def read_colour(text: bytes) -> Optional[Colour]:
    """Returns the colour that this text spells, or None.

    A colour is b, black, w or white, in small or capital letters or a mixture. (The standard,
    simple entities: color.)
    """
    return {b"b": BLACK, b"black": BLACK, b"w": WHITE, b"white": WHITE}.get(text.lower())


def read_vertex(text: bytes) -> Optional[Vertex]:
    """Returns the vertex that this text spells, or None.

    A vertex is a column's letter, small or capital and never I, and a row from 1 to 25; or pass, in
    any letters. (The standard, simple entities: vertex; that a row has no leading zeros is own.)
    """
    if text.lower() == b"pass":
        return PASS
    spelled = re.fullmatch(rb"([A-HJ-Z])([1-9]|1[0-9]|2[0-5])", text.upper())
    if not spelled:
        return None
    return COLUMNS.index(spelled[1]) + 1, int(spelled[2])


def write_vertex(vertex: Vertex) -> bytes:
    """Returns a vertex in its one written form: the capital letter and the row, or pass. (Own.)"""
    if vertex == PASS:
        return b"pass"
    column, row = vertex
    return b"%c%d" % (COLUMNS[column - 1], row)


def read_komi(text: bytes) -> Optional[int]:
    """Returns the half points that this text spells as a komi, or None.

    A komi is a plus, a minus or neither; at most nine digits; then nothing, or a point and at most
    nine digits, which are only zeros, or a 5 and zeros after it; at least one digit in all. (The
    standard, komi, has a float; the rest is own.)
    """
    spelled = re.fullmatch(rb"([+-]?)([0-9]{0,9})(?:\.(0{0,9}|50{0,8}))?", text)
    if not spelled:
        return None
    sign, whole, fraction = spelled[1], spelled[2], spelled[3] or b""
    if whole + fraction == b"":
        return None
    half_points = 2 * int(whole or b"0") + (1 if fraction.startswith(b"5") else 0)
    return -half_points if sign == b"-" else half_points


def write_half_points(half_points: int) -> bytes:
    """Returns a number of half points, zero or more, in points: 13 is 6.5, 14 is 7. (Own.)"""
    return b"%d" % (half_points // 2) + (b".5" if half_points % 2 == 1 else b"")


def most_handicap_stones(size: int) -> int:
    """Returns how many stones a handicap has at most. (Own.)

    That is 9 on odd sizes from 9 up, 4 on size 7 and on even sizes from 8 up, and none below.
    """
    return 0 if size < 7 else 9 if size % 2 == 1 and size >= 9 else 4


def low_line(size: int) -> int:
    """Returns the line of the handicap points: the third below size 13, else the fourth. (Own.)"""
    return 3 if size < 13 else 4


def handicap(size: int, number: int, low: int) -> list[Point]:
    """Returns the points of this many handicap stones in their order.

    The high line is as far from the other edge as the low one. (The standard, fixed handicap
    placement, describes such points; the table and its order are own.)
    """
    high, middle = size + 1 - low, size // 2 + 1
    corners = [(low, low), (high, high), (low, high), (high, low)]
    sides = [(low, middle), (high, middle)]
    ends = [(middle, low), (middle, high)]
    centre = [(middle, middle)]
    return {
        2: corners[:2],
        3: corners[:3],
        4: corners,
        5: corners + centre,
        6: corners + sides,
        7: corners + sides + centre,
        8: corners + sides + ends,
        9: corners + sides + ends + centre,
    }[number]


def handicap_points(size: int, number: int) -> Optional[list[Point]]:
    """Returns the points of so many handicap stones, or None where the size forbids them."""
    if not 2 <= number <= most_handicap_stones(size):
        return None
    return handicap(size, number, low_line(size))
