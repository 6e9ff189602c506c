"""Openings in SGF: the first variation of each game tree, as moves of both sides in turn.

Nothing else may change the board, except that the root may have the black stones of a handicap.
"""
from __future__ import annotations

from .. import sgf
from ..model import COLUMNS
from ..output import Mistake
from .openings import NAMES, Opening, Start
from .rules import BLACK, PASS, WHITE

COLOURS = {sgf.BLACK: BLACK, sgf.WHITE: WHITE}
STONES = ("AB", "AW", "AE")  # the properties that set stones up, or remove them
GO = "1"  # the GM of Go


def of_records(place: str, data: bytes) -> list[Opening]:
    """Returns the openings of a file that has these bytes."""
    try:
        return [opening_of(place, root) for root in sgf.read(data)]
    except sgf.SgfError as error:
        raise Mistake(f"{error.place} of {place}: {error.problem}") from None


def opening_of(place: str, root: sgf.Node) -> Opening:
    """Returns the opening of a game tree."""
    game = root.value("GM")
    if game and game.line().strip() != GO:
        raise sgf.SgfError(game.place, f"this is no game of Go, which has GM[{GO}]")
    size = root.size()
    check_stones(root)
    moves = moves_of(root, size)
    stones = frozenset(root.points("AB", size))
    stones_place = root.properties["AB"][0].place if stones else root.place
    return Opening(
        place=f"{root.place} of {place}",
        first=COLOURS[moves[0].colour],
        moves=[vertex(move.point) for move in moves],
        places=[f"{move.place} of {place}" for move in moves],
        start=Start(size, stones, f"{stones_place} of {place}"),
    )


def check_stones(root: sgf.Node) -> None:
    """Raises SgfError where stones are set up other than black ones at the root."""
    for node in root.main_line():
        for name in STONES:
            if name in node.properties and not (node is root and name == "AB"):
                raise sgf.SgfError(
                    node.properties[name][0].place,
                    f"{name} sets stones up, and an opening has only moves, behind those of a "
                    "handicap as AB in its first node",
                )


def moves_of(root: sgf.Node, size: int) -> list[sgf.Move]:
    """Returns the moves of the main line, of which there has to be one, and each colour's turn."""
    moves = [move for node in root.main_line() if (move := node.move(size))]
    if not moves:
        raise sgf.SgfError(root.place, "the game that begins here has no move")
    for last, move in zip(moves, moves[1:]):
        if last.colour == move.colour:
            other = sgf.WHITE if move.colour == sgf.BLACK else sgf.BLACK
            twice = f"{NAMES[COLOURS[move.colour]]} moves twice in a row"
            raise sgf.SgfError(move.place, f"{twice}: write a pass between both, ;{other}[]")
    return moves


def vertex(point: sgf.Point | None) -> str:
    """Returns a point or a pass as GTP has it."""
    return PASS if point is None else f"{COLUMNS[point[0] - 1]}{point[1]}"
