"""Writes the page of a tournament again and again while that is played, and once at its end.

This is a process of its own, a child of the one that was there before the run: a run ends whatever
is below it.
"""
from __future__ import annotations

import contextlib
import os
import signal
import time

from .. import output, processes
from ..output import Mistake
from ..report.page.file import PageFile, new_place
from ..report.page.view import Asked

LEAST_PAUSE = 10.0  # seconds between two pages
SHARE = 20  # how many times longer a pause is than the last writing took
LOOK = 0.2  # seconds from one look for the plan to the next


class PageWriter:
    """Writes the page of a tournament into a file. It has to be made before the run."""

    def __init__(self, asked: Asked, place: str) -> None:
        self.page = PageFile(asked, place)
        self.ended, is_running = os.pipe()
        own = os.getpid()
        self.process = os.fork()
        if not self.process:
            status = 1
            with contextlib.suppress(BaseException):
                os.close(self.ended)
                self.page.asked = asked._replace(is_played=True)
                if not processes.end_with_parent(own, signal.SIGKILL):
                    self.write_again_and_again()
            os._exit(status)
        os.close(is_running)

    def write_again_and_again(self) -> None:
        """Writes the page, with pauses. What can't be written now may be later."""
        while not os.path.exists(f"{self.page.asked.folder}/plan"):
            time.sleep(LOOK)
        while True:
            began = time.monotonic()
            with contextlib.suppress(OSError, Mistake):
                self.page.write()
            time.sleep(max(LEAST_PAUSE, SHARE * (time.monotonic() - began)))

    def end(self) -> None:
        """Ends the process, and writes the page for the last time."""
        with contextlib.suppress(ProcessLookupError):
            os.kill(self.process, signal.SIGKILL)
        os.read(self.ended, 1)  # nothing, once it has ended
        with contextlib.suppress(OSError):
            os.unlink(new_place(self.page.place, self.process))
        self.page.asked = self.page.asked._replace(is_played=False)
        try:
            self.page.write()
        except OSError as error:
            output.report(f"the page isn't written: {output.description(error)}")
