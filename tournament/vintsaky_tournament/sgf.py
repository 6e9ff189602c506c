"""Go games in SGF, as FF[4] has it: read and written.

`read` returns the root of each game tree of a collection. A node has properties, whose values are
raw, as between brackets, and know their place. It has the nodes that may follow, of which the first
one belongs to the main line. `write` returns the text of a game tree with one line of play.

Points are pairs of a column and a row, both from 1, counted from the lower left corner; a pass is
None. Boards are square, from size 1 to 25. This module needs the standard library alone.
"""
from __future__ import annotations

import re
from bisect import bisect_right
from typing import (
    Dict,
    Iterable,
    Iterator,
    List,
    Mapping,
    NamedTuple,
    Optional,
    Sequence,
    Tuple,
    Union,
)

LARGEST = 25  # of the sizes
USUAL = 19  # the size of a board that has none
LARGEST_WITH_TT = 19  # up to which tt is a pass
BLACK, WHITE = "B", "W"  # the properties of moves
NODES_IN_A_LINE = 10  # of what is written

LINE_BREAK = re.compile("\r\n|\n\r|\r")
BEGIN = re.compile(r"\(\s*;", re.ASCII)
SPACE = re.compile(r"\s*", re.ASCII)
AT_END = " \t\n\v\f\x1a\0"  # Ctrl-Z and NUL are what tools of DOS end or fill a file with
NAME = re.compile("[A-Za-z]+")  # in versions before FF[4] also with lower case, which says nothing
VALUE = re.compile(r"\[([^\]\\]*(?:\\.[^\]\\]*)*)\]", re.DOTALL)
CHARSET = re.compile(rb"CA\s*\[\s*([\w.:-]+)\s*\]")
ESCAPED = re.compile(r"\\(.)", re.DOTALL)
OTHER_SPACE = re.compile(r"[^\S\n]", re.ASCII)  # than line breaks
SIZE = re.compile(r"\s*([1-9][0-9]?)\s*(?::\s*([1-9][0-9]?)\s*)?", re.ASCII)

Point = Tuple[int, int]
Values = Union[str, Sequence[str]]


class Place(NamedTuple):
    """A place in a text: its line and its column, both from 1."""

    line: int
    column: int

    def __str__(self) -> str:
        return f"line {self.line}, column {self.column}"


class SgfError(ValueError):
    """A text that is no SGF, or no game of Go."""

    def __init__(self, place: Place, problem: str) -> None:
        super().__init__(f"{place}: {problem}")
        self.place, self.problem = place, problem


class Value(NamedTuple):
    """A value of a property, as it is between brackets, and the place of the first of these."""

    raw: str
    place: Place

    def text(self) -> str:
        """Returns the text that it stands for, which may have several lines."""
        joined = ESCAPED.sub(lambda found: "" if found[1] == "\n" else found[1], self.raw)
        return OTHER_SPACE.sub(" ", joined)

    def line(self) -> str:
        """Returns the text in one line."""
        return self.text().replace("\n", " ")


class Move(NamedTuple):
    """A move: its colour, which is BLACK or WHITE, its point, or None for a pass, and its place."""

    colour: str
    point: Optional[Point]
    place: Place


class Node:
    """A node of a game tree."""

    def __init__(self, place: Place) -> None:
        self.place = place
        self.properties: Dict[str, List[Value]] = {}
        self.children: List[Node] = []

    def main_line(self) -> Iterator[Node]:
        """Yields this node, and then the first one behind each."""
        node = self
        yield node
        while node.children:
            node = node.children[0]
            yield node

    def value(self, name: str) -> Optional[Value]:
        """Returns the only value of a property; None where the node doesn't have it."""
        values = self.properties.get(name)
        if not values:
            return None
        if len(values) > 1:
            raise SgfError(values[1].place, f"{name} has more than one value")
        return values[0]

    def size(self) -> int:
        """Returns the size of the board, of a root."""
        value = self.value("SZ")
        if value is None:
            return USUAL
        numbers = SIZE.fullmatch(value.raw)
        if not numbers or numbers[2] not in (None, numbers[1]) or int(numbers[1]) > LARGEST:
            raise SgfError(value.place, f"SZ needs a size from 1 to {LARGEST} of a square board")
        return int(numbers[1])

    def move(self, size: int) -> Optional[Move]:
        """Returns the move on a board of this size; None where the node has no move."""
        black, white = self.value(BLACK), self.value(WHITE)
        if black and white:
            place = max(black.place, white.place)
            raise SgfError(place, "a node can't have a move of Black and one of White")
        value = black or white
        if value is None:
            return None
        is_pass = value.raw == "" or value.raw == "tt" and size <= LARGEST_WITH_TT
        point = None if is_pass else point_of(value.raw, size, value.place)
        return Move(BLACK if black else WHITE, point, value.place)

    def points(self, name: str, size: int) -> List[Point]:
        """Returns the points of a property such as AB, of which a value may be a rectangle."""
        found = []
        for value in self.properties.get(name, ()):
            first, _, last = value.raw.partition(":")
            corners = [point_of(each, size, value.place) for each in (first, last or first)]
            columns, rows = (range(min(ends), max(ends) + 1) for ends in zip(*corners))
            found += [(column, row) for row in rows for column in columns]
        return found


def point_of(text: str, size: int, place: Place) -> Point:
    """Returns the point that a value in this place has, on a board of this size."""
    column, row = (ord(letter) - ord("a") + 1 for letter in text) if len(text) == 2 else (0, 0)
    if not (1 <= column <= size and 1 <= row <= size):
        raise SgfError(place, f"'{text}' is no point of a {size}x{size} board")
    return column, size + 1 - row


# ---- reading


def read(data: Union[bytes, str]) -> List[Node]:
    """Returns the root of each game tree, of a text or of the bytes of a file."""
    return Reader(decoded(data) if isinstance(data, bytes) else data).read()


def decoded(data: bytes) -> str:
    """Returns the text of a file: as its CA says, or else UTF-8, or else Latin-1."""
    charset = CHARSET.search(data)
    names = [charset[1].decode("ascii", "replace")] if charset else []
    for name in (*names, "utf-8-sig"):
        try:
            return data.decode(name)
        except (LookupError, ValueError):
            continue
    return data.decode("latin-1")


class Reader:
    """Reads a collection."""

    def __init__(self, text: str) -> None:
        self.text = LINE_BREAK.sub("\n", text).rstrip(AT_END)
        self.starts = [0, *(found.end() for found in re.finditer("\n", self.text))]  # of lines
        self.at = 0
        self.games: List[Node] = []
        self.parents: List[Optional[Node]] = []  # the node before each parenthesis that is open
        self.begins: List[int] = []  # where these are
        self.node: Optional[Node] = None  # the last one in front
        self.is_begun = self.is_ended = False  # whether a parenthesis is in front, of which kind

    def read(self) -> List[Node]:
        """Returns the roots of all games. What is in front of the first one is no part of it."""
        begin = BEGIN.search(self.text)
        if begin is None:
            raise SgfError(Place(1, 1), "there is no game: one begins by (;")
        self.at = begin.start()
        while self.at < len(self.text):
            self.read_part()
            self.skip_space()
        if self.begins:
            raise SgfError(self.place(self.begins[0]), "the game that begins here lacks its end, )")
        return self.games

    def place(self, at: int) -> Place:
        """Returns the place of a character."""
        line = bisect_right(self.starts, at)
        return Place(line, at - self.starts[line - 1] + 1)

    def skip_space(self) -> None:
        """Goes to the next character that is no space."""
        found = SPACE.match(self.text, self.at)
        self.at = found.end() if found else self.at

    def read_part(self) -> None:
        """Reads a parenthesis, the beginning of a node, or a property."""
        character = self.text[self.at]
        if character == "(" and not self.is_begun:
            self.begin_tree()
        elif character == ")" and self.begins and not self.is_begun:
            self.end_tree()
        elif character == ";" and self.begins and not self.is_ended:
            self.begin_node()
        elif self.node and not self.is_begun and not self.is_ended:
            self.read_property(self.node)
        else:
            wanted = "a game begins by (;"
            if self.begins:
                wanted = "a node begins by ;" if self.is_begun else "a variation is in parentheses"
            raise SgfError(self.place(self.at), f"'{character}' isn't expected here: {wanted}")

    def begin_tree(self) -> None:
        """Reads the parenthesis in front of a game, or of a variation."""
        self.parents.append(self.node)
        self.begins.append(self.at)
        self.is_begun, self.is_ended = True, False
        self.at += 1

    def end_tree(self) -> None:
        """Reads the parenthesis behind a game, or behind a variation."""
        self.node = self.parents.pop()
        self.begins.pop()
        self.is_ended = True
        self.at += 1

    def begin_node(self) -> None:
        """Reads the beginning of a node."""
        node = Node(self.place(self.at))
        (self.node.children if self.node else self.games).append(node)
        self.node, self.is_begun = node, False
        self.at += 1

    def read_property(self, node: Node) -> None:
        """Reads a property of a node."""
        begin, word = self.at, NAME.match(self.text, self.at)
        name = "".join(letter for letter in word[0] if letter.isupper()) if word else ""
        if not word or not name:
            problem = f"'{self.text[begin]}' isn't expected here: a property is such as SZ[19]"
            raise SgfError(self.place(begin), problem)
        self.at = word.end()
        self.skip_space()
        values = node.properties.setdefault(name, [])
        count = len(values)
        while self.text.startswith("[", self.at):
            found = VALUE.match(self.text, self.at)
            if found is None:
                raise SgfError(self.place(self.at), f"this value of {name} lacks its end, ]")
            values.append(Value(found[1], self.place(self.at)))
            self.at = found.end()
            self.skip_space()
        if len(values) == count:
            raise SgfError(self.place(begin), f"{name} has no value: one is in brackets")


# ---- writing


def write(nodes: Iterable[Mapping[str, Values]]) -> str:
    """Returns a game tree of these nodes, the first of which is the root. A node has the values of
    each property as they are written, or the only one."""
    root, *others = [";" + "".join(map(property_text, node.items())) for node in nodes]
    starts = range(0, len(others), NODES_IN_A_LINE)
    lines = [root, *("".join(others[start : start + NODES_IN_A_LINE]) for start in starts)]
    text = "\n".join(lines)
    return f"({text})\n"


def property_text(item: Tuple[str, Values]) -> str:
    """Returns a property with its values."""
    name, values = item
    each = [values] if isinstance(values, str) else values
    return name + "".join(f"[{value}]" for value in each)


def point_value(point: Optional[Point], size: int) -> str:
    """Returns the value for a point of a board of this size, or for a pass."""
    if point is None:
        return ""
    column, row = point
    return chr(ord("a") + column - 1) + chr(ord("a") + size - row)


def text_value(text: str) -> str:
    """Returns the value for a text."""
    return re.sub(r"([\]\\])", r"\\\1", text)


def line_value(text: str) -> str:
    """Returns the value for a text of one line, which SGF calls simple."""
    return text_value(re.sub("[\r\n]+", " ", text))


def composed_value(*lines: str) -> str:
    """Returns the value for several texts of one line, such as the name and the version of AP."""
    return ":".join(line_value(line).replace(":", "\\:") for line in lines)
