"""What the sections of a page are made of: the tally, the games, and a sequential test."""
from __future__ import annotations

import copy
import math
from typing import NamedTuple, Sequence

from ...config.plan_file import read_plan
from ...model import Plan
from ...stats.endings import Rules
from ...stats.scores import Estimate
from ...stats.sprt import TestRequest
from ...stats.summary import Counts, EngineRow, Summary
from ...store.left_out import Decided
from .courses import Course
from .games import Gathered
from .rates import has_begun, is_running


class Asked(NamedTuple):
    """What is asked for: a folder, how its games count, and a test. Pages may leave out moves, and
    that of a run knows whether the run goes on."""

    folder: str
    rules: Rules
    leave_out_undecided: bool = False
    test: TestRequest | None = None
    has_moves: bool = True
    is_played: bool | None = None


class Rated(NamedTuple):
    """An engine with its rating, as the tally has it, if it has one."""

    row: EngineRow
    rating: Estimate | None
    better: float | None  # how likely it is that the engine is better than the next one
    group: int  # engines of different groups have no games between them


class View:
    """A tournament as it is now."""

    def __init__(self, asked: Asked, before: View | None = None) -> None:
        self.asked = asked
        self.plan: Plan = read_plan(asked.folder)
        self.counts = Counts(self.plan, asked.folder, asked.rules, asked.leave_out_undecided)
        self.summary = Summary(self.counts)
        self.standings = self.summary.standings()
        known = before.gathered if before else None
        self.gathered: Gathered = Gathered(self.counts, asked.rules, known)
        self.is_running = self.goes_on()
        self.best = self.summary.best(self.standings)
        self.ranking = self.ranked()
        self.order: Sequence[EngineRow] = [rated.row for rated in self.ranking]
        self.test = self.test_of(asked)

    def with_games_in_play(self) -> View:
        """Returns the same results, with the games in play as they are now."""
        found = copy.copy(self)
        found.gathered = self.gathered.with_games_in_play()
        found.is_running = found.goes_on()
        return found

    def goes_on(self) -> bool:
        """Returns whether games are being played. Where a run has ended, another one may play."""
        if self.asked.is_played is None:
            return is_running(self.gathered)
        return self.asked.is_played or has_begun(self.gathered)

    def test_of(self, asked: Asked) -> Course | None:
        """Returns the sequential test that is asked for, if one is."""
        if not asked.test:
            return None
        left_out = Decided(asked.folder, asked.test.text()).games(self.counts.games)
        return Course(self.counts, asked.test, left_out)

    def ranked(self) -> list[Rated]:
        """Returns all engines, the best one first: by their ratings, or of two engines by what
        their pairs say. Those without a rating come last."""
        rated = {
            standing.engine: Rated(
                self.summary.rows[standing.engine], standing.rating, standing.better, number
            )
            for number, group in enumerate(self.standings.groups)
            for standing in group
        }
        if not rated and self.best and len(self.summary.rows) == 2:
            chances = {self.best.engine: self.best.better}
            rows = self.summary.rows.values()
            rated = {
                row.name: Rated(row, row.pairs.estimate(), chances.get(row.name), 0) for row in rows
            }
        others = [Rated(row, None, None, 0) for row in self.summary.order if row.name not in rated]
        return sorted(rated.values(), key=place_of) + others


def place_of(rated: Rated) -> tuple[int, float]:
    """Returns by what engines are sorted."""
    return rated.group, -rated.rating.elo if rated.rating else math.inf
