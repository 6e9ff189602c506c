"""The openings of a tournament: the file that has them, and what a plan refuses of them.

A line has the moves of an opening, with spaces between them: vertices as in GTP, or `pass`, in any
case. It may begin with the colour that moves first. What follows a # is a comment, and a line
without words is no opening. A file of SGF has one in each of its game trees, and a directory has
such files.
"""
from __future__ import annotations

import os
import random
from typing import NamedTuple, Sequence

from ..model import COLUMNS
from ..output import Mistake
from . import rules
from .setup import Setup

COLOURS = {"b": rules.BLACK, "black": rules.BLACK, "w": rules.WHITE, "white": rules.WHITE}
NAMES = {rules.BLACK: "Black", rules.WHITE: "White"}
OF_SGF = ".sgf"  # with which the name of such a file ends


class Start(NamedTuple):
    """The board on which a record begins: its size, and its black stones, by column and row."""

    size: int
    stones: frozenset[tuple[int, int]]
    place: str  # of the stones, if there are any


class Opening(NamedTuple):
    """An opening, and where it was read."""

    place: str
    first: int | None  # the colour with which it begins, if that is said
    moves: list[str]
    places: Sequence[str] = ()  # of the moves, in a record
    start: Start | None = None  # of a record

    def text(self) -> str:
        """Returns the moves, as a plan has them."""
        return " ".join(self.moves)

    def place_of(self, number: int) -> str:
        """Returns where the move of this number was read."""
        return self.places[number - 1] if self.places else self.place


def read(place: str) -> list[Opening]:
    """Returns the openings of a file, or of a directory of records."""
    try:
        return [opening for file in files_of(place) for opening in read_file(file)]
    except OSError as error:
        raise Mistake(f"{error.filename or place} can't be read: {error.strerror}") from None


def files_of(place: str) -> list[str]:
    """Returns the files in this place: itself, or all records of a directory by their names."""
    if not os.path.isdir(place):
        return [place]
    names = sorted(name for name in os.listdir(place) if is_record(name))
    if not names:
        raise Mistake(f"{place} has no file whose name ends with {OF_SGF}")
    return [os.path.join(place, name) for name in names]


def is_record(name: str) -> bool:
    """Returns whether a file of this name is read as SGF: one that isn't hidden."""
    return name.lower().endswith(OF_SGF) and not name.startswith(".")


def read_file(place: str) -> list[Opening]:
    """Returns the openings of a file."""
    with open(place, "rb") as file:
        data = file.read()
    if not place.lower().endswith(OF_SGF):
        return of_lines(place, os.fsdecode(data))
    from .sgf_openings import of_records  # which few plans need

    return of_records(place, data)


def of_lines(place: str, text: str) -> list[Opening]:
    """Returns the openings of a file that has a line for each."""
    openings = []
    for number, line in enumerate(text.split("\n"), 1):
        words = line.partition("#")[0].split()
        if words:
            openings.append(opening_of(f"line {number} of {place}", words))
    if not openings:
        raise Mistake(
            f"{place} has no opening: write a line of moves for each, such as D4 Q16 pass"
        )
    return openings


def opening_of(place: str, words: Sequence[str]) -> Opening:
    """Returns the opening of a line that has these words."""
    first = COLOURS.get(words[0].lower())
    moves = []
    for word in words if first is None else words[1:]:
        vertex = rules.as_vertex(word)
        if vertex is None:
            raise Mistake(
                f"{place}: '{word}' is no vertex: write moves such as D4 Q16 pass; a colour may "
                "come first alone"
            )
        moves.append(vertex)
    if not moves:
        raise Mistake(f"{place} has no move")
    return Opening(place, first, moves)


def shuffled(openings: Sequence[Opening], number: int) -> list[Opening]:
    """Returns the openings in an order that this number chooses: the same one on each machine, and
    in each version of Python, which keeps only what random() returns."""
    generator = random.Random(number)
    drawn = [(generator.random(), at) for at in range(len(openings))]
    return [openings[at] for _, at in sorted(drawn)]


def check(openings: Sequence[Opening], options: Sequence[str]) -> None:
    """Raises Mistake unless each opening is legal with these options of twogtp, and the game goes
    on behind it."""
    setup = Setup(options)
    size, handicap, most = int(setup.size), int(setup.handicap), int(setup.max_moves)
    to_move = rules.WHITE if handicap else rules.BLACK
    after = " after a handicap" if handicap else ""
    for opening in openings:
        if opening.start:
            check_start(opening, opening.start, size, handicap)
        if opening.first not in (None, to_move):
            first = NAMES[rules.BLACK + rules.WHITE - to_move]
            place = opening.place_of(1)
            raise Mistake(f"{place}: {NAMES[to_move]} moves first{after}, and not {first}")
        if len(opening.moves) >= most:
            raise Mistake(
                f"{opening.place} has {len(opening.moves)} moves: there have to be fewer than the "
                f"{most} of --max-moves"
            )
        check_moves(opening, rules.Board(size, handicap), to_move)


def check_start(opening: Opening, start: Start, size: int, handicap: int) -> None:
    """Raises Mistake unless the board on which a record begins is that of the plan."""
    if start.size != size:
        boards = f"its board is {start.size}x{start.size}, and that of the plan {size}x{size}"
        raise Mistake(f"{opening.place}: {boards}")
    points = rules.handicap_points(size, handicap)
    if start.stones == frozenset(points):
        return
    if not handicap:
        raise Mistake(f"{start.place}: stones are set up, and the plan has no --handicap")
    wanted = f"those of --handicap {handicap}, "
    wanted += " ".join(f"{COLUMNS[column - 1]}{row}" for column, row in points)
    what = "the stones that are set up aren't" if start.stones else "AB is missing, with"
    raise Mistake(f"{start.place}: {what} {wanted}")


def check_moves(opening: Opening, board: rules.Board, colour: int) -> None:
    """Raises Mistake unless the moves of an opening are legal on this board, where this colour
    moves first, and none is behind two passes."""
    last = None
    for number, move in enumerate(opening.moves, 1):
        place = opening.place_of(number)
        if last == move == rules.PASS:
            raise Mistake(
                f"{place}: moves {number - 1} and {number} are passes, which end the game"
            )
        broken = board.play(colour, move)
        if broken:
            raise Mistake(f"{place}: move {number}, {NAMES[colour]} {move}: {broken}")
        last, colour = move, rules.BLACK + rules.WHITE - colour
