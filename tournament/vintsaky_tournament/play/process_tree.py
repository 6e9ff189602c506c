"""The processes below this one: all that it and they started, wherever they went.

This process adopts what loses its parent (a subreaper), so each of them has a chain of parents up
to it, and becomes its child when those between have ended.
"""
from __future__ import annotations

import contextlib
import os
import signal
import time
from typing import Collection, Iterable

from .. import processes
from ..processes import children_of

TENTH = 0.1  # seconds from one look to the next
MOST = 10  # seconds after which what can't be killed is left


def adopt_orphans() -> None:
    """Makes this process the parent of each descendant that loses its own."""
    processes.adopt_orphans()
    if not os.path.exists(f"/proc/self/task/{os.getpid()}/children"):
        raise OSError(0, "/proc of this system doesn't list the children of a process")


def leave_children(ending: Collection[signal.Signals]) -> None:
    """Continues in a fork where this process has children already.

    It never started them: a shell did, before it became this one by `exec`. So they, and all that
    they start, aren't below the fork. This process passes on these signals, and ends as the fork.
    """
    if not children_of(os.getpid()):
        return
    signal.pthread_sigmask(signal.SIG_BLOCK, [signal.SIGCHLD, *ending])
    own, process = os.getpid(), os.fork()
    if not process:
        if processes.end_with_parent(own, signal.SIGTERM):
            os._exit(128 + signal.SIGTERM)
        return
    ended = status = 0
    while not ended:
        received = signal.sigwait([signal.SIGCHLD, *ending])
        if received != signal.SIGCHLD:
            send(received, [process])
        ended, status = os.waitpid(process, os.WNOHANG)
    os._exit(processes.shell_status(status))


def send(number: int, processes: Iterable[int]) -> None:
    """Sends these processes a signal; one may have ended."""
    for process in processes:
        with contextlib.suppress(ProcessLookupError, PermissionError):
            os.kill(process, number)


class ProcessTree:
    """The processes below this one."""

    def __init__(self) -> None:
        self.awaited: set[int] = set()
        # how those ended that were awaited: the status, or the negative number of a signal
        self.ended: dict[int, int] = {}

    def reap(self) -> bool:
        """Waits for each child that has ended. Returns whether there are others."""
        try:
            while True:
                process, status = os.waitpid(-1, os.WNOHANG)
                if not process:
                    return True
                if process in self.awaited:
                    self.awaited.remove(process)
                    self.ended[process] = os.waitstatus_to_exitcode(status)
        except ChildProcessError:
            return False

    def others(self, spared: Collection[int]) -> list[int]:
        """Returns the children that live, except those that are spared."""
        if not self.reap():
            return []
        return [child for child in children_of(os.getpid()) if child not in spared]

    def end(self, spared: Collection[int] = (), seconds: float = 0) -> None:
        """Ends all children that aren't spared, and what is below them. For so many seconds they
        get TERM, at each tenth of one, and may end by themselves; then they are killed."""
        began = time.monotonic()
        while True:
            left = self.others(spared)
            past = time.monotonic() - began
            if not left or past > seconds + MOST:
                return
            if past < seconds:
                for process in left:  # which grows
                    left += children_of(process)
                send(signal.SIGTERM, left)
            else:
                send(signal.SIGKILL, left)
            signal.sigtimedwait([signal.SIGCHLD], TENTH)
