"""Games out of files: what twogtp --record writes, and SGF."""
from __future__ import annotations

import re
from typing import Iterator

from ... import sgf
from ...config.rules import BLACK, EMPTY, PASS, WHITE, as_vertex, handicap_points
from ...config.setup import Setup
from ...model import COLUMNS, SIDES
from ...output import Mistake
from ...stats.endings import ending_of
from ..sgf import result as result_in_sgf
from .shown import Position, Shown, Step, is_on_board, point_of

LINE = re.compile(r"(game [0-9]+): (\S.*?) moves ([0-9]{1,4}) restarts [0-9]+ [0-9]+")
NO_NAMES = ["Black", "White"]


def of_twogtp(text: str, setup: Setup) -> Iterator[Shown]:
    """Yields the games that twogtp has written with --record, which says nothing of the board."""
    size, stones = setup.rows(), setup.stones()
    lines = text.splitlines()
    for at, line in enumerate(lines):
        found = LINE.fullmatch(line)
        if not found:
            continue
        name, verdict, count = found.groups()
        words = lines[at + 1].split() if at + 1 < len(lines) else []
        vertices = [as_vertex(word) for word in words]
        if len(words) != int(count) or None in vertices:
            raise Mistake(f"{name} has no record of {count} moves: did twogtp have --record?")
        points = [(row - 1) * size + column - 1 for column, row in handicap_points(size, stones)]
        yield Shown(
            name=name.replace(" ", "-"),
            title=name,
            engines=NO_NAMES,
            size=size,
            komi=setup.komi,
            handicap=stones,
            black=points,
            white=[],
            first=WHITE if stones else BLACK,
            steps=[move_of(name, size, stones, *each) for each in enumerate(vertices)],
            ended=f"{verdict}, {count} moves",
            result=result_of(verdict),
            atEnd=f"The end: {verdict}",
        )


def move_of(name: str, size: int, stones: int, at: int, vertex: str | None) -> Step:
    """Returns a move of a game of twogtp."""
    assert vertex is not None
    if not is_on_board(vertex, size):
        raise Mistake(
            f"move {at + 1} of {name}, {vertex}, is off a board of {size}x{size}: give --size"
        )
    return {"side": SIDES[(at + (stones > 0)) % 2] + 1, "move": point_of(vertex, size)}


def result_of(verdict: str) -> str:
    """Returns the result of a game with this verdict as SGF has it."""
    try:
        return result_in_sgf(verdict, ending_of(verdict))
    except (IndexError, ValueError, KeyError):
        return ""


# ---- SGF


def of_sgf(data: bytes) -> Iterator[Shown]:
    """Yields the games of a file in SGF: their main lines."""
    for number, root in enumerate(sgf.read(data), 1):
        yield of_root(root, number)


def of_root(root: sgf.Node, number: int) -> Shown:
    """Returns the main line of a game tree."""
    size = root.size()
    position = Position(size)
    put_stones(root, position)
    first = WHITE if line_of(root, "PL").upper().startswith("W") else BLACK
    if line_of(root, "PL") == "" and position.points(BLACK) and not position.points(WHITE):
        first = WHITE
    black, white = position.points(BLACK), position.points(WHITE)
    steps = [step for node in root.main_line() for step in steps_of(node, root, position)]
    ended = [line_of(root, name) for name in ("RE", "EV", "DT") if line_of(root, name)]
    result = line_of(root, "RE")
    return Shown(
        name=f"game-{number}",
        title=line_of(root, "GN") or f"game {number}",
        engines=[line_of(root, "PB") or "Black", line_of(root, "PW") or "White"],
        size=size,
        komi=line_of(root, "KM") or "0",
        handicap=int(line_of(root, "HA")) if line_of(root, "HA").isdigit() else 0,
        black=black,
        white=white,
        first=first,
        steps=steps,
        ended="; ".join(ended),
        result=result,
        atEnd=f"The end: {result}" if result else "The end",
    )


def line_of(node: sgf.Node, name: str) -> str:
    """Returns a property of a node as a line; an empty one where it has none."""
    value = node.value(name)
    return value.line() if value else ""


def put_stones(node: sgf.Node, position: Position) -> bool:
    """Puts the stones of a node, and returns whether it has any."""
    has_any = False
    for name, colour in (("AB", BLACK), ("AW", WHITE), ("AE", EMPTY)):
        points = node.points(name, position.size)
        has_any = has_any or bool(points)
        position.put(colour, [(row - 1) * position.size + column - 1 for column, row in points])
    return has_any


def steps_of(node: sgf.Node, root: sgf.Node, position: Position) -> Iterator[Step]:
    """Yields the steps of a node: the stones that it puts, and its move."""
    size = position.size
    comment = node.value("C")
    text = {"text": comment.text()} if comment else {}
    move = node.move(size)
    if node is not root and put_stones(node, position):
        yield {**position.as_step("stones are put"), **({} if move else text)}
    if move:
        side = SIDES[move.colour == sgf.WHITE]
        vertex = vertex_of(move.point)
        position.play(side, vertex)
        yield {"side": side + 1, "move": point_of(vertex, size), **text}


def vertex_of(point: sgf.Point | None) -> str:
    """Returns how GTP writes a point, or a pass."""
    return PASS if point is None else f"{COLUMNS[point[0] - 1]}{point[1]}"
