"""The times of a game: what each move took and what its clock had left, by the notes; and the clock
as SGF and PGN have it."""
from __future__ import annotations

import re
from typing import NamedTuple

from ..model import COLOURS, Plan, Result
from ..relay.clock import ABSOLUTE, BYOYOMI, CANADIAN, FISCHER, Clock, read_clock, written
from ..relay.timing import Timing

MOVE = re.compile(
    r"([1-9][0-9]{0,3}) (black|white) ([A-Z][0-9]+|pass|undone)"
    r"(?: opening| ([0-9]+\.[0-9]+)(?: cpu ([0-9]+\.[0-9]+))?)?"
)


class Left(NamedTuple):
    """What a clock has left: seconds, and in a period its moves, or in byoyomi the periods."""

    seconds: str
    stones: int | None


class MoveTime(NamedTuple):
    """The seconds of a move, those that processors worked for it, and what is left; None for each
    that isn't known."""

    seconds: str | None
    processor: str | None
    left: Left | None


class TimedMove(NamedTuple):
    """A move as the notes have it, with its times."""

    vertex: str
    time: MoveTime


def times_of(notes: str, plan: Plan, result: Result) -> list[MoveTime]:
    """Returns the times of each move of a result; none where its notes have other moves."""
    timings = clocks_of(plan)
    moves: list[TimedMove] = []
    for line in filter(str.isascii, notes.split("\n")):  # others are damaged
        for colour, timing in timings.items():
            timing.charge_notes([line], colour)
        found = MOVE.fullmatch(line)
        if found:
            number, colour, vertex, seconds, processor = found.groups()
            del moves[int(number) - 1 :]
            if vertex != "undone":
                left = left_of(timings[colour].clock) if timings and seconds else None
                moves.append(TimedMove(vertex, MoveTime(seconds, processor, left)))
    vertices = result.vertices.split()
    del moves[len(vertices) :]  # an illegal one, which the record doesn't have
    return [move.time for move in moves] if [move.vertex for move in moves] == vertices else []


def clocks_of(plan: Plan) -> dict[str, Timing]:
    """Returns the clocks of both sides, by their colours; none where a plan has no clock."""
    if not plan.clock:
        return {}
    margin = float(plan.margin or 0)
    return {colour: Timing(read_clock(plan.clock), margin) for colour in COLOURS}


def left_of(clock: Clock) -> Left:
    """Returns what a clock has left behind a move."""
    if clock.is_in_overtime:
        return Left(written(clock.period_left), clock.count_left)
    return Left(written(clock.main_left), None)


def overtime(clock: Clock) -> str | None:
    """Returns what a clock has besides the main time, as servers write it in SGF; None where that
    is nothing."""
    period = written(clock.period)
    texts = {
        CANADIAN: f"{clock.count}/{period} Canadian",
        BYOYOMI: f"{clock.count}x{period} byo-yomi",
        FISCHER: f"{period} fischer",
    }
    return texts.get(clock.kind)


def time_control(clock: Clock) -> str | None:
    """Returns a clock as PGN has it; None where PGN can't say it."""
    main = written(clock.main)
    return {ABSOLUTE: main, FISCHER: f"{main}+{written(clock.period)}"}.get(clock.kind)
