"""The trial of an engine: before the first game on a machine its command is started once, set up as
for a game, with its clock, and asked for a move.

It is done in a process of its own, as a game is, and that has another one below it, which asks the
engine: where two of both and the run are killed at one moment, the third ends all that the engine
started. FOLDER/tried/HOST/passed has the outcome on a machine, by command, and is locked for the
time of a trial; NAME.log next to it has what the engine wrote on standard error.
"""
from __future__ import annotations

import enum
import os
import select
import signal
import time
from typing import TYPE_CHECKING, NamedTuple, NoReturn

from .. import processes
from . import process_tree

if TYPE_CHECKING:
    from ..config.setup import Setup
    from ..relay.timing import Timing
    from .known import Limits

LONGEST = 8192  # bytes of an answer, as for twogtp
LONGEST_LIST = 65536  # of one that twogtp doesn't get, as for the relay
LAST = 2  # seconds in which it may end by itself, and in which it may say what it is
CHUNK = 65536
SHOWN = 80  # bytes of an answer that are shown


class TrialOutcome(enum.IntEnum):
    """How a trial ended: the status of its process."""

    PASSED = 0  # the engine answered all
    UNABLE = 1  # something was refused
    NOT_STARTED = 2  # nothing was answered
    BROKEN = 3  # the trial itself failed


class Report(NamedTuple):
    """How a trial ended, what the engine can't do, and what it says that it is."""

    outcome: TrialOutcome
    failure: str
    version: str


class Failed(Exception):
    """What an engine can't do."""

    def __init__(self, text: str) -> None:
        super().__init__(text)
        self.text = text


class Late(Failed):
    """The same, where no answer was complete in time."""


class Refusal(Failed):
    """The same, where a command was refused."""


class Asked:
    """An engine that was started, and is asked one command after the other."""

    def __init__(self, command: list[str], folder: str, log: int) -> None:
        (from_here, self.given), (self.taken, to_here) = os.pipe(), os.pipe()
        self.number, self.failure = processes.start_program(
            command, folder, (from_here, to_here, log)
        )
        os.close(from_here)
        os.close(to_here)
        self.read, self.has_answered = b"", False

    def ask(self, number: int, command: str, seconds: float) -> bytes:
        """Asks a command, waits so long for its answer, and returns that. Raises Failed where it
        fails."""
        answer = self.answer_to(f"{number} {command}", command, seconds)
        self.judge(command, answer, str(number).encode())
        return answer

    def ask_own(self, command: str, seconds: float) -> bytes:
        """Asks a command that has no number, as the relay does, and returns the text of the answer;
        an empty one where the list of commands is refused, which then none is."""
        answer = self.answer_to(command, command, seconds, LONGEST_LIST)
        try:
            self.judge(command, answer, b"")
        except Refusal:
            if command != "list_commands":
                raise
            return b""
        return answer[1:]

    def answer_to(self, line: str, command: str, seconds: float, longest: int = LONGEST) -> bytes:
        """Writes this line, and returns the answer, whatever it is. Raises Failed where none ends
        in so many seconds."""
        until = time.monotonic() + seconds
        try:
            os.write(self.given, f"{line}\n".encode())
        except BrokenPipeError:
            pass  # its output says more
        while b"\n\n" not in self.read[:longest]:
            if len(self.read) >= longest:
                self.judge_status(command, self.read)
                length = f"more than {longest} bytes"
                raise Failed(f"its answer to '{command}' has {length}{self.shown()}")
            left = until - time.monotonic()
            if left <= 0 or not select.select([self.taken], [], [], left)[0]:
                raise Late(f"it doesn't answer '{command}' in {seconds:g} seconds{self.shown()}")
            data = os.read(self.taken, CHUNK)
            if not data:
                raise Failed(f"it ended at '{command}': {self.ending()}{self.shown()}")
            self.read = (self.read + data.replace(b"\r", b"")).lstrip(b"\n")
        answer, _, rest = self.read.partition(b"\n\n")
        self.read = rest.lstrip(b"\n")
        return answer

    def says(self, number: int, command: str) -> str:
        """Returns what it answers to a command on which nothing depends, in one line; nothing where
        that fails."""
        try:
            answer = self.ask(number, command, LAST)
        except Failed:
            return ""
        return " ".join(answer.decode("utf-8", "replace").split()[1:])[:SHOWN]

    def judge(self, command: str, answer: bytes, number: bytes) -> None:
        """Raises Failed unless this is a success with this number."""
        head, _, text = answer.partition(b" ")
        said = answer[:SHOWN].decode("latin-1")
        self.judge_status(command, answer)
        self.has_answered = True
        if head[:1] == b"?":
            raise Refusal(f"it refuses '{command}': {said!r}")
        if head[1:].split(b"\n")[0].lstrip(b"0") != number:
            asked = f"{number.decode()} {command}"
            raise Failed(f"its answer to '{asked}' has another number: {said!r}")
        if command.startswith("genmove") and (len(text.split()) != 1 or not text.strip().isalnum()):
            raise Failed(f"its answer to '{command}' is no move: {said!r}")

    def judge_status(self, command: str, answer: bytes) -> None:
        """Raises Failed unless this begins as an answer."""
        if answer[:1] not in (b"=", b"?"):
            said = answer[:SHOWN].decode("latin-1")
            raise Failed(f"what it answers to '{command}' is no answer: {said!r}")

    def shown(self) -> str:
        """Returns what it wrote of an answer that it didn't end, the beginning."""
        return f"; it wrote {self.read[:SHOWN].decode('latin-1')!r}" if self.read else ""

    def ending(self) -> str:
        """Returns how it ended, or that it didn't."""
        until = time.monotonic() + LAST
        while time.monotonic() < until:
            number, status = os.waitpid(self.number, os.WNOHANG)
            if number:
                code = os.waitstatus_to_exitcode(status)
                return f"signal {-code}" if code < 0 else f"exit status {code}"
            time.sleep(0.01)
        return "its output ended, but it ran on"

    def quit(self, most: float) -> None:
        """Asks it to end, and waits for that, but not long. Raises Late where it neither answers
        nor ends, for which each game waits so many seconds at most."""
        try:
            self.answer_to("quit", "quit", LAST)
        except Late:
            wait = f"each of its games waits for that, up to {most:g} seconds"
            raise Late(f"it doesn't answer 'quit' in {LAST} seconds: {wait}") from None
        except Failed:
            return  # it ended, or it writes too much
        os.close(self.given)
        self.ending()


def ask_setup(engine: Asked, trial: Trial) -> int:
    """Asks an engine what it is asked at the beginning of a game, with the commands of a clock
    between, and returns how many commands have a number."""
    timing, number = timing_of(trial.clock), 0
    for number, asked in enumerate(trial.setup.commands(), 1):
        words = asked.encode().split()
        if timing:
            for own in timing.commands_before(words[0], words):
                text = engine.ask_own(own.decode(), trial.limits.answer)
                timing.take_answer(own.split()[0], text)
        is_move = words[0] == b"genmove"
        engine.ask(number, asked, trial.limits.move if is_move else trial.limits.answer)
    return number


def timing_of(clock: str | None) -> Timing | None:
    """Returns what a game has for a clock; None without one."""
    if clock is None:
        return None
    from ..relay.clock import read_clock  # which few plans need
    from ..relay.timing import Timing

    return Timing(read_clock(clock), margin=0)


def attempt(trial: Trial) -> Report:
    """Tries an engine, and returns its report."""
    engine, version = Asked(trial.command, trial.folder, trial.log), ""
    try:
        if engine.failure:
            raise Failed(engine.failure)
        number = ask_setup(engine, trial)
        said = [engine.says(number + 1, "name"), engine.says(number + 2, "version")]
        version = " ".join(filter(None, said))
        engine.quit(trial.limits.end)
        return Report(TrialOutcome.PASSED, "", version)
    except Failed as failed:
        outcome = TrialOutcome.UNABLE if engine.has_answered else TrialOutcome.NOT_STARTED
        return Report(outcome, failed.text, version)


def outcome_of(status: int) -> TrialOutcome:
    """Returns how a trial ended whose process ended with this status, or by a signal."""
    return TrialOutcome(status) if 0 <= status < len(TrialOutcome) else TrialOutcome.BROKEN


def end_here(*_: object) -> NoReturn:
    """Ends all that is below this process, and the process."""
    processes.end_descendants()
    os._exit(TrialOutcome.BROKEN)


def watch(name: str, parent: int) -> bool:
    """Names this process, and has it adopt what loses its parent, and end with that where its own
    parent ends. Returns whether that still runs."""
    processes.set_process_name(name)
    process_tree.adopt_orphans()
    signal.signal(signal.SIGTERM, end_here)  # which is sent also where the parent is killed
    signal.pthread_sigmask(signal.SIG_SETMASK, ())
    return not processes.end_with_parent(parent, signal.SIGTERM)


class Trial(NamedTuple):
    """What is tried: an engine, in which folder, with which board, limits and clock."""

    name: str
    command: list[str]
    folder: str
    log: int  # the descriptor of its standard error
    setup: Setup
    limits: Limits
    clock: str | None

    def run(self, parent: int, output: int) -> NoReturn:
        """Tries the engine below this process, a new fork of the run, and ends the process. The
        report is written into a pipe."""
        outcome = TrialOutcome.BROKEN
        try:
            os.setsid()
            if watch(f"trial {self.name}", parent):
                outcome = self.run_below(output)
        except BaseException as error:  # this process may not go on as the run
            text = f"its trial failed: {type(error).__name__}: {error}"
            os.write(output, text.encode(errors="replace"))
        finally:
            os._exit(outcome)

    def run_below(self, output: int) -> TrialOutcome:
        """Tries the engine in a child of this process, and returns how that ended. The child writes
        into a pipe what the engine can't do, a zero byte, and what it says that it is."""
        own, process = os.getpid(), os.fork()
        if process:
            status = os.waitstatus_to_exitcode(os.waitpid(process, 0)[1])
            processes.end_descendants()
            return outcome_of(status)
        if not watch(f"asks {self.name}", own):
            return TrialOutcome.BROKEN
        report = attempt(self)
        processes.end_descendants()
        os.write(output, os.fsencode(f"{report.failure}\0{report.version}"))
        return report.outcome


def report_of(status: int, text: str) -> Report:
    """Returns the report of a trial, by the status of its process and what that wrote."""
    failure, _, version = text.partition("\0")
    return Report(outcome_of(status), failure, version)
