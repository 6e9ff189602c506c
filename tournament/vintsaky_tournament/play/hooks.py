"""The commands that an operator wants to be run at the end of a run, and at its first failure.

Each runs beside the games, in a process of its own, and reads the tally as JSON. One that fails or
takes too long is reported, and changes nothing else.
"""
from __future__ import annotations

import os
import signal
import time
from typing import TYPE_CHECKING, Any, Mapping, NoReturn

from .. import output, processes
from . import process_tree

if TYPE_CHECKING:
    from ..cluster import Share
    from ..model import Plan
    from ..stats.sprt import TestRequest
    from .run import Run

LIMIT = 60  # seconds for a command
SOON = 1  # seconds in which a signal is still that which has stopped the run
MOST_FAILURES = 100  # which are kept
ON_END, ON_FAILURE = "--on-end", "--on-failure"


class Hooks:
    """The commands of a run, by their options, and what has failed in it. They start in a folder.
    The run may be of a share, and may have a test."""

    def __init__(
        self,
        run: Run,
        plan: Plan,
        commands: Mapping[str, str | None],
        folder: str,
        share: Share | None = None,
        asked: TestRequest | None = None,
    ) -> None:
        self.run, self.plan, self.commands, self.folder = run, plan, commands, folder
        self.share, self.asked = share, asked
        self.failures: dict[str, str] = {}  # of games or engines, and why

    def add_failures(self, failures: Mapping[str, str]) -> None:
        """Takes failures, at the first of which a command is started."""
        is_first = not self.failures
        if len(self.failures) < MOST_FAILURES:
            self.failures.update(failures)
        if is_first:
            self.start(ON_FAILURE)

    def end(self, status: int) -> None:
        """Runs the command for the end of a run, which has this status, and waits for it."""
        self.wait()
        self.start(ON_END, status)
        self.wait()

    def start(self, option: str, status: int | None = None) -> None:
        """Starts the command of an option, if there is one."""
        command = self.commands.get(option)
        if not command:
            return
        own, process = os.getpid(), os.fork()
        if not process:
            self.run.close_locks()
            self.run_here(option, command, status, own)
        self.run.tree.awaited.add(process)
        self.run.others.add(process)

    def wait(self) -> None:
        """Waits until the commands have ended, which have their limit. A signal ends them."""
        began = time.monotonic()
        while self.run.has_others():
            received = signal.sigtimedwait([signal.SIGCHLD, *self.run.ending], LIMIT)
            is_asked_to_end = received is not None and received.si_signo != signal.SIGCHLD
            if is_asked_to_end and time.monotonic() > began + SOON:
                self.run.tree.end()

    def run_here(self, option: str, command: str, status: int | None, parent: int) -> NoReturn:
        """Runs the command of an option in this process, a new fork of the run, and ends it."""
        try:
            os.setsid()
            processes.set_process_name(option[2:])
            process_tree.adopt_orphans()
            if not processes.end_with_parent(parent, signal.SIGKILL):
                failure = failure_of(command, self.folder, self.text(option, status), LIMIT)
                if failure:
                    output.report(f"{option}: {failure}: {command}")
        except BaseException as error:  # this process may not go on as the run
            output.report(f"{option}: {type(error).__name__}: {error}")
        finally:
            os._exit(0)

    def text(self, option: str, status: int | None) -> str:
        """Returns what a command reads: the tally, what has failed, and the status at the end."""
        import json  # which isn't needed elsewhere

        from ..report.as_json import facts_of
        from ..stats.summary import Counts, Summary

        counts = Counts(self.plan, self.run.folder)
        test = counts.test(self.asked) if self.asked else None
        facts: dict[str, Any] = {
            "event": option[len("--on-") :],
            "folder": self.run.at,
            "task": str(self.share) if self.share else None,
            "status": status,
            "failed": self.failures,
            **facts_of(Summary(counts), test),
        }
        return f"{json.dumps(facts)}\n"


def failure_of(command: str, folder: str, text: str, limit: float) -> str:
    """Runs a command of a shell, which reads a text, for so many seconds at most, and ends all that
    it started. Returns why it failed; an empty text where it didn't."""
    file = os.memfd_create("tally")  # so that no full disk matters
    output.write(file, text)
    os.lseek(file, 0, os.SEEK_SET)
    streams = (file, output.STDERR, output.STDERR)
    process, failure = processes.start_program(["/bin/sh", "-c", command], folder, streams)
    os.close(file)
    if failure:
        return f"it can't be started: {failure}"
    tree, until = process_tree.ProcessTree(), time.monotonic() + limit
    tree.awaited.add(process)
    while tree.reap() and (left := until - time.monotonic()) > 0:
        signal.sigtimedwait([signal.SIGCHLD], left)
    status = tree.ended.get(process)
    tree.end()
    if status is None:
        return f"it was ended, since it took over {limit:g} seconds"
    if status < 0:
        return f"it was ended by signal {-status}"
    return f"it failed with status {status}" if status else ""
