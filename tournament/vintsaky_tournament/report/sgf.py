"""The results in SGF: a file for each game."""
from __future__ import annotations

import contextlib
import os
from typing import Iterator

from .. import sgf
from ..config.rules import PASS, column_and_row, handicap_points
from ..config.setup import Setup
from ..model import Ending, Move, Plan, Side, Way
from ..output import Mistake
from ..relay.clock import read_clock, written
from ..stats.records import Record, Records, Terms
from ..store.notes import bytes_for
from .times import MoveTime, overtime, times_of

LETTERS = {Side.BLACK: "B", Side.WHITE: "W"}
UNTIMED = MoveTime(None, None, None)
WON_BY = {Way.RESIGNED: "R", Way.LATE: "T", Way.TIME: "T"}  # without points, and else by forfeit


class Sheet:
    """What all records of a plan have: its board with handicap stones, and its clock."""

    def __init__(self, plan: Plan, folder: str) -> None:
        setup, self.folder = Setup(plan.options), folder
        self.plan, self.size, self.handicap = plan, setup.rows(), setup.stones()
        self.terms = Terms.of_plan(plan)
        self.stones = handicap_points(self.size, self.handicap)
        self.first = Side.WHITE if self.stones else Side.BLACK
        self.clock = read_clock(plan.clock) if plan.clock else None

    def text(self, record: Record) -> str:
        """Returns the record of a game."""
        moves = record.result.moves(self.first)
        times = self.times(record) or [UNTIMED] * len(moves)
        return sgf.write([self.root(record), *map(self.node, moves, times)])

    def times(self, record: Record) -> list[MoveTime]:
        """Returns the times of a game's moves; none where they aren't known."""
        data = bytes_for(self.folder, record.game, record.result.line)
        return [] if data is None else times_of(data.decode("latin-1"), self.plan, record.result)

    def root(self, record: Record) -> dict[str, sgf.Values]:
        """Returns the properties of a game's root."""
        version, clock, terms = record.twogtp_version, self.clock, self.terms
        properties = {
            "FF": "4",
            "GM": "1",
            "CA": "UTF-8",
            "AP": version and sgf.composed_value("twogtp", version),
            "SZ": str(self.size),
            "RU": terms.ruleset,
            "KM": written(terms.komi),
            "HA": str(self.handicap) if self.handicap else None,
            "TM": clock and written(clock.main),
            "OT": clock and overtime(clock),
            "DT": record.date and record.date[: len("2026-12-01")],
            "PB": record.black,
            "PW": record.white,
            "RE": result(record.verdict, record.ending),
            "GN": record.game,
            "GC": sgf.text_value("\n".join(comments(record, terms))),
            "C": sgf.text_value(record.verdict),
            "AB": [sgf.point_value(stone, self.size) for stone in self.stones],
        }
        return {name: value for name, value in properties.items() if value}

    def node(self, move: Move, time: MoveTime) -> dict[str, sgf.Values]:
        """Returns the properties of a move: itself, what its side's clock had left, and, since SGF
        has no property for it, a comment with the seconds that it took."""
        letter, vertex = LETTERS[move.side], move.vertex
        point = None if vertex == PASS else column_and_row(vertex)
        properties = {letter: sgf.point_value(point, self.size)}
        if time.left:
            properties[f"{letter}L"] = time.left.seconds
            if time.left.stones is not None:
                properties[f"O{letter}"] = str(time.left.stones)
        if time.seconds:
            used = f", cpu {time.processor} s" if time.processor else ""
            properties["C"] = f"{time.seconds} s{used}"
        return {**properties}


def comments(record: Record, terms: Terms) -> Iterator[str]:
    """Yields what SGF has no properties for: what a failure counts, the engines' versions, and the
    limit of a move."""
    yield record.rule
    if record.black_version:
        yield f"Black: {record.black_version}"
    if record.white_version:
        yield f"White: {record.white_version}"
    if terms.move_limit:
        yield f"Limit of a move: {written(terms.move_limit)} s"


def result(verdict: str, ending: Ending) -> str:
    """Returns the result of a game that ended so."""
    if ending.way is Way.DRAWN:
        return "0"
    if ending.winner is None:
        return "Void"
    won = verdict[2:] if ending.way is Way.WON else WON_BY.get(ending.way, "F")
    return f"{LETTERS[ending.winner]}+{won}"


def write_records(records: Records, folder: str) -> None:
    """Writes a file for each game into a folder, which is new or empty. Where one can't be written,
    none is left."""
    is_there, sheet = os.path.isdir(folder), Sheet(records.plan, records.folder)
    places: list[str] = []
    if is_there and os.listdir(folder):
        raise Mistake(f"{folder} isn't empty: name a new directory for --sgf")
    try:
        os.makedirs(folder, exist_ok=True)
        for record in records:
            places.append(f"{folder}/{record.game}.sgf")
            with open(places[-1], "x", encoding="utf-8") as file:
                file.write(sheet.text(record))
    except BaseException as error:
        for place in places:
            with contextlib.suppress(OSError):
                os.unlink(place)
        if not is_there:
            with contextlib.suppress(OSError):
                os.rmdir(folder)
        if isinstance(error, OSError):
            is_own = error.filename in (None, *places[-1:])
            raise OSError(
                error.errno,
                f"no file of --sgf is left: {error.strerror}",
                folder if is_own else error.filename,
            ) from None
        raise
