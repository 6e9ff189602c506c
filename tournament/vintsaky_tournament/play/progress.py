"""How far a run is: a line on standard error, each minute, and in a terminal more often. The first
one says how to stop the run."""
from __future__ import annotations

import os
import time
from typing import Callable

from .. import output

# seconds to the first line in a terminal, between two there, and between two elsewhere
AT_ONCE, OFTEN, SELDOM = 0, 10, 60


class Progress:
    """The progress of a run that began with so many results. `standing` returns who leads, and
    `clock` the seconds."""

    def __init__(
        self,
        count: int,
        total: int,
        standing: Callable[[], str] = str,
        is_terminal: bool | None = None,
        clock: Callable[[], float] = time.monotonic,
    ) -> None:
        self.before, self.total, self.clock, self.began = count, total, clock, clock()
        self.standing = standing
        self.failed = 0  # games that ended without a result
        self.lost = 0  # results in which a side was unfit or abandoned
        self.how_to_stop = f"; kill {os.getpid()} stops this run"  # in the first line
        is_terminal = os.isatty(2) if is_terminal is None else is_terminal
        self.step = OFTEN if is_terminal else SELDOM
        self.next = self.began + (AT_ONCE if is_terminal else SELDOM)

    def pause(self) -> float:
        """Returns the seconds to the next line."""
        return max(0.0, self.next - self.clock())

    def show(self, count: int) -> None:
        """Writes a line where it is time. There are so many results now."""
        if self.clock() >= self.next:
            self.next = self.clock() + self.step
            output.report(f"{self.line(count)}{self.standing()}{self.how_to_stop}")
            self.how_to_stop = ""

    def line(self, count: int) -> str:
        """Returns what is done, what failed, how many games a minute there are, and how long the
        rest takes at that rate."""
        minutes = (self.clock() - self.began) / 60
        rate = (count - self.before) / minutes if minutes > 0 else 0
        left = as_text((self.total - count) / rate) if rate else "unknown time"
        lost = f", {self.lost} of them unfit, abandoned or late" if self.lost else ""
        done = f"{count} of {self.total} games have a result{lost}, {self.failed} failed"
        return f"{done}; {rate:.1f} games a minute, {left} left"


def as_text(minutes: float) -> str:
    """Returns a time for people."""
    if minutes < 100:
        return f"{minutes:.0f} min"
    return f"{minutes / 60:.0f} h" if minutes < 100 * 60 else f"{minutes / (24 * 60):.0f} days"
