"""Plays one game of a plan, by its name."""
from __future__ import annotations

import time

from .. import output
from ..model import GameId, Outcome, Plan, State
from ..output import NoStart
from ..store import results
from ..store.layout import InTheWay, Taken
from ..store.notes import line_of
from .known import NO_START, KnownEngines
from .run import Run

PAUSE = 0.2  # seconds between two tries where another process holds the game
SHORT = 0.6  # seconds for which it is tried then: perhaps it only looks at the game


class One:
    """One game of a plan, by its name."""

    def __init__(self, plan: Plan, folder: str, twogtp: str, name: str) -> None:
        self.run, self.plan, self.name = Run(plan, folder, twogtp), plan, name
        self.known, self.engines = KnownEngines(self.run, plan), GameId.parse(name).engines

    def begin(self) -> int | None:
        """Begins it. Returns the status where that is known by then: it has a result, another
        process plays it, or it can't be begun."""
        try:
            if not self.run.has_result(self.name):
                self.known.try_all(self.engines)
            until = time.monotonic() + SHORT
            while not self.run.stopped:
                try:
                    return 0 if self.run.begin(self.name) else None
                except Taken:
                    if time.monotonic() > until:
                        return self.taken()
                self.run.wait_for_signal(PAUSE)
        except NoStart as problem:
            output.report(f"{self.name}: {problem.text}")
            return NO_START
        except InTheWay as problem:
            output.report(f"{self.name}: no result: {problem.text}")
            return 1
        except OSError as error:
            output.report(f"{self.name}: no result: {output.description(error)}")
            self.run.end_without_space(error)
            return 1
        return self.run.stop_status()

    def taken(self) -> int:
        """Reports that another process plays it, and returns the status."""
        output.report(f"{self.name}: another process plays it")
        return 0

    def end(self) -> int:
        """Waits for its end, and returns the status."""
        result, outcome = None, Outcome.RESULT
        while self.run.playing:
            for _, outcome, result in self.run.wait():
                if outcome.not_started is not None:
                    self.known.note_failed(self.engines[outcome.not_started])
        self.run.tree.end()
        if outcome is Outcome.TAKEN:
            return self.taken()
        if not result:
            return self.run.stop_status() if self.run.stopped else 1
        try:
            line = line_of(self.run.folder, self.name, result)
            output.write(output.STDOUT, f"{self.name}: {line}\n")
        except OSError:
            output.report(f"{self.name}: it has a result, but this line was not written")
            return 1
        game = self.plan.games().number(self.name) or 0
        state = results.state_of(self.plan, self.run.folder, game, result)
        return 1 if state is State.LOST else 0


def play_one(plan: Plan, folder: str, twogtp: str, name: str) -> int:
    """Plays a game, unless it has a result or another process plays it, and returns the status."""
    one = One(plan, folder, twogtp, name)
    status = one.begin()
    return one.end() if status is None else status
