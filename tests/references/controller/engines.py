"""The engines of a match: the commands by which `twogtp` starts them, and the same in memory."""
from __future__ import annotations

import sys
from pathlib import Path
from typing import NamedTuple, Optional, Protocol

from ..engine import engine as reference
from ..engine.engine import Options
from ..engine.game import SIMPLE, KoRule
from ..engine.policies import PolicyName

from .faulty import ENDS, Act, Faulty

FAULTY = Path(__file__).resolve().parent / "faulty.py"
FLOOD = b"\n" * 8193


class Running(Protocol):
    """A process of an engine, in memory."""

    takes_all: bool  # there is one answer to all that is sent at a time, and else to each command
    logs: bool  # whether what is sent next is logged
    status: int  # with which the process ends by itself before it is asked to quit

    def begin(self) -> Act:
        """Returns what it does before its first command."""

    def answer(self, line: bytes) -> Act:
        """Returns what it does when it is sent this. What it writes is one write."""


class Program(NamedTuple):
    """A program that is no engine, or isn't there."""

    command: str
    act: Act = Act(b"")  # what it does by itself
    reason: str = ""  # why it can't be started, where it can't

    @property
    def word(self) -> bytes:
        """The first word of the command, as a command is cut at spaces."""
        return self.command.split(" ")[0].encode()


NO_FILE = "no such file"
ODD_PROGRAM = 'no_such\t"program"\\\n--mode\u00e9 gtp'
LONG_PROGRAM = "./no_such_program" + 150 * "x" + " --mode gtp"
PROGRAMS = {
    program.command: program
    for program in [
        Program("no_such_program", reason=NO_FILE),
        Program(ODD_PROGRAM, reason=NO_FILE),
        Program(LONG_PROGRAM, reason=NO_FILE),
        Program("/", reason="not allowed"),
        Program("true", Act(b"", ENDS)),
        Program("echo hello", Act(b"hello\n", ENDS)),
        Program("cat"),
    ]
}


class Engine:
    """An engine of a side."""

    keeps_log = False
    program: Optional[Program] = None  # where that is no engine

    def command(self, log: str) -> list[str]:
        """Returns the words of its command, which logs in this file what it is sent."""
        raise NotImplementedError

    def start(self, life: int) -> Running:
        """Returns its process of this number, in memory."""
        raise NotImplementedError


class Other(Engine):
    """A program of PROGRAMS."""

    takes_all = True
    logs = False
    status = 0

    def __init__(self, name: str) -> None:
        self.name = name
        self.program = PROGRAMS[name]

    def command(self, log: str) -> list[str]:
        return [self.name]

    def start(self, life: int) -> Running:
        return self

    def begin(self) -> Act:
        """Returns what it does, whatever it is sent."""
        assert self.program
        return self.program.act

    def answer(self, line: bytes) -> Act:
        """Returns what it was sent, as the only program that doesn't end by itself does."""
        return Act(line)


class Planned(Engine):
    """The engine that misbehaves as its plan says."""

    keeps_log = True

    def __init__(self, seed: int, passes: int, style: str, plan: str) -> None:
        self.seed, self.passes, self.style, self.plan = seed, passes, style, plan

    def command(self, log: str) -> list[str]:
        python = [sys.executable, "-I", "-S", "-B", str(FAULTY)]
        return [*python, log, str(self.seed), str(self.passes), self.style, self.plan]

    def start(self, life: int) -> Running:
        return Faulty(self.seed, self.passes, self.style, self.plan, life)


class Timed(Planned):
    """The same behind `timeout`.

    Where its plan ends it with status 124, `timeout` does that, and its program is silent.
    """

    def __init__(self, seconds: int, seed: int, passes: int, style: str, plan: str) -> None:
        super().__init__(seed, passes, style, plan)
        self.seconds = seconds

    def command(self, log: str) -> list[str]:
        words = [word.replace("ends:124", "on") for word in super().command(log)]
        return ["timeout", "--foreground", str(self.seconds), *words]


class Ours(Engine):
    """Our own engine. In memory this is its reference.

    What it answered once to a list of commands is kept, since the reference is slow.
    """

    def __init__(
        self,
        policy: PolicyName,
        seed: int = 1,
        book: str = "",
        fault: str = "none",
        rule: KoRule = SIMPLE,
    ) -> None:
        self.options = Options(policy, seed, book.encode(), rule)
        self.fault = fault
        self.answered: dict[tuple[bytes, ...], Act] = {}

    def command(self, log: str) -> list[str]:
        policy, seed, book, rule = self.options
        words = ["gtp_engine", "--policy", str(policy), "--seed", str(seed)]
        words += ["--book", book.decode()] if book else []
        words += ["--ko", str(rule)] if rule != SIMPLE else []
        return words + (["--fault", self.fault] if self.fault != "none" else [])

    def start(self, life: int) -> Running:
        return Remembering(self)


class Remembering:
    """A process of our engine, which asks the reference only for what was never asked before."""

    takes_all = False
    logs = False
    status = 4  # where its fault ends it

    def __init__(self, ours: Ours) -> None:
        self.ours = ours
        self.sent: tuple[bytes, ...] = ()
        self.engine: Optional[FaultyReference] = None
        self.fed = 0  # how many of these commands the reference was sent

    def begin(self) -> Act:
        return Act(b"")

    def answer(self, line: bytes) -> Act:
        self.sent += (line,)
        answered = self.ours.answered
        if self.sent not in answered:
            self.engine = self.engine or FaultyReference(self.ours)
            while self.fed < len(self.sent):
                self.fed += 1
                act = self.engine.answer(self.sent[self.fed - 1])
                answered[self.sent[: self.fed]] = act
        return answered[self.sent]


class FaultyReference:
    """The reference of our engine, with the fault of --fault, which docs/protocol.md describes."""

    def __init__(self, ours: Ours) -> None:
        engine = reference.start(ours.options)
        assert engine is not None, "the book is no book"
        self.engine = engine
        self.kind, *self.numbers = ours.fault.split(":")
        self.genmoves = 0

    def answer(self, line: bytes) -> Act:
        """Returns the reply, or what takes its place at the N-th genmove that succeeds."""
        reply = self.engine.feed(line)
        if b"genmove" in line and reply.startswith(b"="):
            self.genmoves += 1
            if self.kind != "none" and self.genmoves == int(self.numbers[0]):
                return self.fault(reply)
        return Act(reply, ENDS) if self.engine.ended else Act(reply)

    def fault(self, reply: bytes) -> Act:
        """Returns what takes the place of this reply."""
        if self.kind == "stop":
            return Act(b"", ENDS)
        if self.kind == "cut":
            return Act(reply[: int(self.numbers[1])], ENDS)
        return Act(b"hello\n\n" if self.kind == "junk" else FLOOD)
