"""Which engines were tried on this machine, and how that ended.

FOLDER/tried/HOST/passed has a line for each trial, of which the last one counts: `passed KEY`, by
what was tried, or `failed KEY` where an engine that passed wasn't started in a game. What an engine
can't do is `unable KEY<tab>LIMITS<tab>REASON`, and counts as long as the limits are the same.
`unstarted KEY<tab>TIME<tab>REASON` counts for those that began before that time: they waited for
this trial. A time that is still to come is that of a clock that was ahead, and doesn't count.
"""
from __future__ import annotations

import contextlib
import enum
import fcntl
import os
import time
from typing import TYPE_CHECKING, Iterable, NamedTuple

from .. import output
from ..config.setup import Setup
from ..output import NoStart
from ..store.notes import seconds_of
from . import programs

if TYPE_CHECKING:
    from ..model import Plan
    from .run import Run

NO_START = 69  # the status where an engine can't be started
PAUSE = 0.2  # seconds between two looks whether another process has ended its trials
LONGEST_MOVE = 600  # seconds, where a clock allows more
SOON = 10  # seconds after which it is said what is waited for
TO_SPACES = {ord(character): " " for character in "\t\n\0"}


class EngineState(str, enum.Enum):
    """What is written down of an engine."""

    PASSED = "passed"
    FAILED = "failed"
    UNABLE = "unable"
    UNSTARTED = "unstarted"


WITH_REASON = (EngineState.UNABLE, EngineState.UNSTARTED)


class Known(NamedTuple):
    """What is written down of an engine: the state, when that counts, and why."""

    state: str = ""
    counts: str = ""
    reason: str = ""


class Limits(NamedTuple):
    """How many seconds an answer may take, a move, and the end."""

    answer: float
    move: float
    end: float


def limits_of(plan: Plan) -> Limits:
    """Returns the limits of a trial: those of a game."""
    limit = float(plan.limit or 0)
    answer, move = float(plan.start_limit or limit), float(plan.move_limit or limit)
    if plan.clock:
        from ..relay.clock import read_clock  # which few plans need

        allowed = read_clock(plan.clock).seconds_left() + float(plan.margin or 0)
        move = min(move, allowed, LONGEST_MOVE)
    return Limits(answer, move, min(answer, limit))


class KnownEngines:
    """The trials in a folder, on this machine, as a run knows them."""

    def __init__(self, run: Run, plan: Plan) -> None:
        self.run, self.plan, self.match = run, plan, run.match
        self.setup = Setup(plan.options)
        # engines that were tried by this run, or of which it said what they can't do
        self.done: set[str] = set()
        self.again: set[str] = set()  # engines that are tried whatever is known of them
        self.began = time.time()
        self.limits = limits_of(plan)
        self.name = f"tried/{os.uname().nodename}"
        self.place = f"{run.at}/{self.name}"

    # ---- what is known

    def key(self, name: str) -> str:
        """Returns what is tried of an engine: its command, where it starts, the board, and the
        clock."""
        setup, command = self.setup, self.plan.engines[name].command
        how = " directly" if self.plan.is_direct else ""
        clock = f" clock {self.plan.clock}" if self.plan.clock else ""
        board = f"size {setup.size} komi {setup.komi} handicap {setup.handicap}"
        return f"{command}\t{self.match.folder}\t{board}{how}{clock}"

    def read(self, file: int) -> dict[str, Known]:
        """Returns what is written down, by key."""
        found = {}
        for line in output.read_lines(file):
            state, _, key = line.partition(" ")
            parts = key.rsplit("\t", 2) if state in WITH_REASON else [key, "", ""]
            if len(parts) == 3:
                found[parts[0]] = Known(state, *parts[1:])
        return found

    def note(self, state: EngineState, name: str, *more: str) -> None:
        """Writes down the state of an engine, and for some when it counts, and why."""
        texts = [self.key(name), *(text.translate(TO_SPACES) for text in more)]
        with contextlib.suppress(FileNotFoundError):
            file = os.open(f"{self.place}/passed", os.O_WRONLY | os.O_APPEND)
            try:
                output.write(file, f"{state.value} " + "\t".join(texts) + "\n")
            finally:
                os.close(file)

    def note_failed(self, name: str) -> None:
        """Writes down that an engine wasn't started in a game."""
        self.note(EngineState.FAILED, name)

    def could_start(self, name: str, known: dict[str, Known]) -> bool | None:
        """Returns whether an engine could be started in a trial that counts; None where it is to be
        tried. What it can't do is said again."""
        state, counts, reason = known.get(self.key(name), Known())
        is_done = name in self.done
        if name in self.again and not is_done and state != EngineState.UNSTARTED:
            return None
        was_started = state in (EngineState.PASSED, EngineState.UNABLE)
        if was_started and not is_done and not self.is_there(name):
            return None  # its trial says what is missing
        if state == EngineState.UNABLE and counts == str(tuple(self.limits)) and not is_done:
            self.done.add(name)
            advice = f"to try again, remove {self.run.folder}/{self.name}/passed"
            output.report(f"{name}: {reason}; tried before: {advice}")
        elif state == EngineState.UNSTARTED and self.began < seconds_of(counts) <= time.time():
            output.report(f"{name} can't be started here: {reason}")
            return False
        return True if state == EngineState.PASSED or name in self.done else None

    def is_there(self, name: str) -> bool:
        """Returns whether the program of an engine is there, where its command names it without the
        seed."""
        word = self.match.commands[name][0]
        return "%s" in word or programs.find(word, self.match.folder) is not None

    # ---- trials

    def try_all(self, names: Iterable[str]) -> None:
        """Tries these engines, except those that passed before. What one can't do is reported.
        Raises NoStart where one can't be started."""
        if not os.path.isdir(self.match.folder):
            where = f"{self.match.folder}, in which the engines start"
            advice = f"make it, or name another one in {self.run.folder}/plan"
            raise NoStart(f"there is no directory {where}: {advice}")
        os.makedirs(self.place, exist_ok=True)
        file = os.open(f"{self.place}/passed", os.O_RDWR | os.O_CREAT | os.O_APPEND, 0o666)
        try:
            known = self.read(file)
            started = {name: self.could_start(name, known) for name in names}
            if None in started.values() and self.lock(file):
                known = self.read(file)
                for name, is_started in started.items():
                    if is_started is None:
                        started[name] = self.is_started(name, known)
            failed = [name for name, is_started in started.items() if is_started is False]
            if failed and not self.run.stopped:
                raise NoStart("no game is begun here", failed)
        finally:
            os.close(file)

    def is_started(self, name: str, known: dict[str, Known]) -> bool | None:
        """Returns whether an engine can be started, as far as that is known, or else by its
        trial."""
        is_started = self.could_start(name, known)
        if is_started is not None or self.run.stopped:
            return is_started
        from .trials import try_engine  # which isn't needed where all engines are known

        files = self.run.files.states_of(name)
        is_started = try_engine(self, name)
        self.run.files.note_written(name, files)
        return is_started

    def lock(self, file: int) -> bool:
        """Waits until no other process tries engines here. Returns False where the run is stopped.
        A file system may have no locks."""
        wait = LongWait("another process tries engines on this machine, and this one waits for it")
        while not self.run.stopped:
            try:
                fcntl.flock(file, fcntl.LOCK_EX | fcntl.LOCK_NB)
                return True
            except BlockingIOError:
                self.run.wait_for_signal(min(PAUSE, wait.seconds_left() or PAUSE))
            except OSError:
                return True
        return False


class LongWait:
    """A wait that may be long, which is said then, once."""

    def __init__(self, text: str) -> None:
        self.text: str | None = text
        self.soon = time.monotonic() + SOON

    def seconds_left(self) -> float | None:
        """Returns how many seconds are left until it is said; None once it was. It is said here."""
        if self.text is None:
            return None
        left = self.soon - time.monotonic()
        if left > 0:
            return left
        output.report(self.text)
        self.text = None
        return None
