"""One game, in a process of its own: it starts twogtp, waits for its end, ends all that is left of
it, and leaves the result.

The process is a fork of the run, which costs less than a start. It has a session of its own, adopts
what the engines start, and gets TERM where the run ends. Where it is killed itself, twogtp is
killed with it, each `between` ends its engine, and the run ends what is left.
"""
from __future__ import annotations

import contextlib
import os
import signal
import time
from typing import TYPE_CHECKING, Collection, NoReturn

from .. import output, processes
from ..model import NOT_STARTED, GameId, Outcome, Result, Side
from ..store import index, results
from ..store.layout import is_file
from ..store.notes import waited_for
from ..store.scores import is_by_score
from . import process_tree, programs
from .log import Log
from .match import NotesFile, start_failure

if TYPE_CHECKING:
    from ..store.layout import Places
    from ..store.notes import Notes
    from .match import Match

GRACE = 2  # seconds for which engines may run on after their game, and twogtp at the limit
SAME = 0.2  # seconds within which TERM reaches this process, where all processes get it
FOREVER = 9999999  # seconds
STOPPING = 1  # seconds in which all gets TERM at a stop, before it is killed
ENDING = (signal.SIGTERM, signal.SIGINT, signal.SIGHUP)
PLAYED, FAILED, USAGE, BROKEN = 0, 1, 2, 3  # the statuses of twogtp


class Game:
    """A game that is played in this process."""

    def __init__(self, name: str, places: Places, match: Match) -> None:
        self.name, self.places, self.match = name, places, match
        self.tree = process_tree.ProcessTree()
        self.is_stopped = False  # whether it was asked to end
        self.is_over = False  # whether it was longer than the limit
        self.is_alone = False  # whether all has ended that it started
        self.result = -1  # the descriptor of the new file, and what it was before it was read
        self.file: os.stat_result | None = None
        self.notes: NotesFile | None = None
        self.log: Log | None = None

    def play(self) -> Outcome:
        """Plays it, and returns how it ended. What has no result is reported."""
        try:
            self.result, log = self.places.new_files()
            self.log = Log(log)
            if not self.match.is_direct:
                self.notes = NotesFile(self.name, self.places, self.match)
        except FileNotFoundError:
            return Outcome.TAKEN
        except OSError as error:
            return self.no_result(output.description(error), Outcome.NO_SPACE)
        folder = self.match.folder if self.match.is_direct else programs.HERE
        try:
            command = self.match.words(self.name)
            twogtp, failure = programs.start(command, folder, self.result, self.log.end)
        except OSError as error:
            twogtp, failure = 0, output.description(error)
        if failure:
            return self.no_result(f"twogtp can't be started: {failure}")
        self.tree.awaited.add(twogtp)
        self.wait_for(twogtp)
        self.log.close()
        return self.leave(self.tree.ended.get(twogtp, -signal.SIGKILL))

    def wait(self, seconds: float) -> None:
        """Waits for a signal, so many seconds at most. Meanwhile the log is read."""
        until = time.monotonic() + seconds
        while True:
            left = max(0, until - time.monotonic())
            received = signal.sigtimedwait([signal.SIGCHLD, signal.SIGIO, *ENDING], left)
            if received is None or received.si_signo != signal.SIGIO:
                break
            if self.log:
                self.log.read()
            if not left:
                break
        if received is not None and received.si_signo in ENDING:
            self.is_stopped = True
        self.is_alone = not self.tree.reap()

    def wait_for(self, twogtp: int) -> None:
        """Waits for the end of twogtp, which gets TERM at the limit, and of all that it started.
        What doesn't end is ended."""
        until = time.monotonic() + self.match.limit
        while twogtp not in self.tree.ended and not self.is_stopped:
            left = until - time.monotonic()
            if left > 0:
                self.wait(left)
            elif self.is_over:
                break
            else:
                self.is_over, until = True, until + GRACE
                process_tree.send(signal.SIGTERM, [twogtp])
        if twogtp in self.tree.ended:
            until = time.monotonic() + GRACE
            while not (self.is_alone or self.is_stopped) and time.monotonic() < until:
                self.wait(until - time.monotonic())
        if not self.is_alone:
            self.tree.end(seconds=STOPPING if self.is_stopped else 0)

    def leave(self, status: int) -> Outcome:
        """Leaves the result, if there is one. It also counts where an engine doesn't answer `quit`,
        so that twogtp is ended when its line is there."""
        self.file = os.fstat(self.result)
        result = self.match.rule.parse(results.contents(self.result))
        found = self.notes.read() if self.notes else None
        if status in (USAGE, BROKEN) or not result:
            if -status in ENDING and not self.is_over:
                self.wait(SAME)
            has_ended = status in (PLAYED, FAILED, USAGE, BROKEN)
            is_full = has_ended and output.write_error(self.places.at) is not None
            outcome = Outcome.NO_SPACE if is_full else Outcome.NO_RESULT
            return self.no_result(self.reason(status, found), outcome, found)
        if self.notes and not found:
            if output.write_error(self.places.at):
                return self.no_result(f"{self.notes.place} can't be written", Outcome.NO_SPACE)
            gone = "somebody removed it, or there was no room for it"
            return self.no_result(f"{self.notes.place} is gone: {gone}")
        failed = self.failed_start(result, found)
        return self.keep(result, found) if failed is None else failed

    def failed_start(self, result: Result, found: Notes | None) -> Outcome | None:
        """Returns how the game ended where an engine wasn't started."""
        side = result.abandoned_side()
        if side is None or found and found.started[side]:
            return None
        reason = found.failure(side) if found else start_failure(self.places.new_log, side)
        if reason is None:
            return None
        if not reason:
            line = results.last_quote(self.places.new_log)
            return self.no_result(f"what stands between ended: {line}", found=found)
        text = f"{self.engine(side)} wasn't started: {reason}"
        return self.no_result(text, NOT_STARTED[side], found)

    def keep(self, result: Result, found: Notes | None) -> Outcome:
        """Keeps this result."""
        if self.match.plan.scorer and is_by_score(result.verdict):
            self.score(result)
        try:
            if self.notes and found:
                self.notes.close(found, f"result: {result.line}")
            os.fsync(self.result)
            if not is_file(self.result, self.places.new_result):
                return Outcome.TAKEN
            self.places.put()
        except OSError as error:
            reason = f"its result was not written: {error.strerror}"
            return self.no_result(reason, Outcome.NO_SPACE)
        self.add_to_index(result, found)
        self.places.remove()
        return Outcome.RESULT

    def add_to_index(self, result: Result, found: Notes | None) -> None:
        """Adds the line of this result, by its file as that was before it was read."""
        assert self.file
        noted = (os.fstat(self.notes.file), found) if self.notes and found else None
        index.add(self.places.folder, self.name, self.match.rule, (self.file, result), noted)

    def score(self, result: Result) -> None:
        """Has the scorer score the game, unless it is asked to end: the result counts anyway."""
        from ..judge.scorer import score_here  # which isn't needed elsewhere

        assert self.log
        own, process = os.getpid(), os.fork()
        if not process:
            score_here(self.match, self.places.result, result, self.log.end, own)
        self.tree.awaited.add(process)
        while process not in self.tree.ended and not self.is_stopped:
            self.wait(FOREVER)
        self.tree.end()
        self.log.close()

    def engine(self, side: Side) -> str:
        """Returns the name of an engine."""
        return GameId.parse(self.name).engines[side]

    def reason(self, status: int, found: Notes | None) -> str:
        """Returns why there is no result, by the status of twogtp."""
        if self.is_over:
            awaited = found.awaited if found else None
            who = ""
            if awaited:
                who = f"; {self.engine(awaited.side)} was waited for{waited_for(awaited)}"
            return f"not over in {self.match.limit} seconds{who}"
        if status < 0:
            return f"ended by signal {-status}"
        if status in (USAGE, BROKEN):
            line = results.last_quote(self.places.new_log)
            return line or f"status {status} of twogtp: is the disk full?"
        if status in (PLAYED, FAILED):
            return "what twogtp wrote is not whole: is the disk full?"
        return f"status {status} of twogtp"

    def no_result(
        self, reason: str, outcome: Outcome = Outcome.NO_RESULT, found: Notes | None = None
    ) -> Outcome:
        """Reports why there is no result, on standard error and in the log, unless it was asked to
        end. Returns how it ended."""
        self.is_stopped = self.is_stopped or bool(signal.sigpending().intersection(ENDING))
        if self.notes and found:
            with contextlib.suppress(OSError):
                self.notes.close(found, f"no result: {'stopped' if self.is_stopped else reason}")
        if self.is_stopped:
            return Outcome.STOPPED  # the run may have to add to its log
        report(self.name, self.places, reason)
        self.places.remove()
        return outcome


def no_result(has_old: bool) -> str:
    """Returns the words for a game that failed, which may have an old result."""
    return "no new result, and the old one stays" if has_old else "no result"


def report(name: str, places: Places, reason: str) -> None:
    """Reports why a game has no result, or no new one, on standard error and in its log."""
    head = no_result(places.has_old)
    text = f"{head}: {reason}"
    try:
        places.add_to_log(text if places.has_old else reason)
    except OSError as error:
        cause = "" if error.strerror in reason else f"{error.strerror}: "
        text = f"{head}: {cause}{reason}; so its log isn't written either"
    output.report(f"{name}: {text}")


def play_here(
    name: str, places: Places, match: Match, parent: int, processors: Collection[int]
) -> NoReturn:
    """Plays a game in this process, a new fork of the run in which all signals of ENDING are
    blocked, and ends the process. It uses these processors, or all where none are given."""
    outcome = Outcome.BROKEN
    try:
        os.setsid()
        processes.set_process_name(f"game {name}")
        signal.signal(signal.SIGTERM, signal.SIG_DFL)
        process_tree.adopt_orphans()
        if processors:
            os.sched_setaffinity(0, processors)
        if processes.end_with_parent(parent, signal.SIGTERM):
            outcome = Outcome.STOPPED
        else:
            outcome = Game(name, places, match).play()
    except BaseException as error:  # this process may not go on as the run
        reason = f"{type(error).__name__}: {error}"
        output.report(f"{name}: {no_result(places.has_old)}: {reason}")
    finally:
        os._exit(outcome)
