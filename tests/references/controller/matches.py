"""The match program, with engines in memory: what README.md and docs/ say of `twogtp`."""
from __future__ import annotations

from pathlib import Path
from typing import Mapping, NamedTuple, Optional, Sequence

from ..engine import values
from ..engine.values import BLACK, WHITE, Colour

from . import replies, why
from .controller import MOST_UNANSWERED, SIDES, Action, Controller, Report, Setup, Write
from .engines import Engine, Running
from .faulty import CLOSES, ENDS, FLOODS, LATE, SHUTS, Act

MOST_TURNS = 100_000
FLOOD = 9000  # times that a text is written that is written without end: more than a reply may have


class Timing(NamedTuple):
    """What is left to the controller, to the processes and to the pipes.

    The result of a random match has to be the same for all of these, except for the standard error
    under `--why`, which says how many commands are unanswered. There `twogtp` sends as many as are
    allowed, in one write. And where what it says is a question of time, the timing in which each
    read brings what was written at once gives all that may be written. That is so
    - where an engine writes what is no reply and has other commands to answer: some of those
      answers may be read with it;
    - where an engine is sent a script of more than eight commands: how many of them were sent when
      it fails depends on how many replies each read brought;
    - where an engine ends by itself, and is written to after that: the write may fail, or the end
      of its output is met first.
    """

    most: int  # script commands that may be unanswered at a time
    is_quick: bool  # an engine answers as soon as it is sent something, or when it is waited for
    breaks: bool  # a write to an engine that has ended fails


PATIENT = Timing(MOST_UNANSWERED, is_quick=False, breaks=False)
TIMINGS = [
    Timing(MOST_UNANSWERED, is_quick=True, breaks=True),
    PATIENT,
    Timing(1, is_quick=False, breaks=True),
]


class Match(NamedTuple):
    """A match: the engines of both sides, and the options of `twogtp`."""

    engines: Mapping[Colour, Engine]
    size: int = 19
    komi: str = "6.5"
    handicap: int = 0
    games: int = 1
    most_moves: int = 1000
    restarts: int = 2
    record: bool = False
    show: bool = False
    why: bool = False

    def options(self) -> list[str]:
        """Returns the options, except those with their default."""
        words = []
        for name, default in self._field_defaults.items():
            value = getattr(self, name)
            option = "max-moves" if name == "most_moves" else name
            if value != default:
                words.append(f"--{option}" if value is True else f"--{option}={value}")
        return words

    def command(self, logs: Mapping[Colour, Path]) -> list[str]:
        """Returns the command of the program, whose engines have these files as logs."""
        words = ["twogtp", *self.options()]
        for side in SIDES:
            words += [f"--{side}", " ".join(self.engines[side].command(str(logs[side])))]
        return words


class Result(NamedTuple):
    """The result of a match by the program, with the logs of both engines."""

    status: int
    output: bytes
    errors: bytes
    logs: Mapping[Colour, bytes]


class Expected(NamedTuple):
    """The result of a match by the reference.

    Each line of the standard error is a list of texts: what is written in this timing, and what may
    be written in others.
    """

    status: int
    output: bytes
    errors: list[list[bytes]]
    logs: Mapping[Colour, bytes]

    def in_this_timing(self) -> Result:
        """Returns the result in this timing."""
        errors = b"".join(texts[0] for texts in self.errors)
        return Result(self.status, self.output, errors, self.logs)

    def allows(self, result: Result, any_errors: bool = False) -> bool:
        """Returns whether this may be the result, with any standard error where so asked."""
        if result._replace(errors=b"") != self.in_this_timing()._replace(errors=b""):
            return False
        lines = result.errors.splitlines(keepends=True)
        return any_errors or (
            len(lines) == len(self.errors)
            and all(line in texts for line, texts in zip(lines, self.errors))
        )


class Undetermined(Exception):
    """What happens isn't determined: an engine is silent, or the match has no end."""


class Process:
    """An engine in memory that was started."""

    def __init__(self, engine: Running, log: list[bytes], timing: Timing) -> None:
        self.engine, self.log, self.timing = engine, log, timing
        self.output = b""
        self.unread: list[tuple[int, bytes]] = []  # commands, each with the number of its write
        self.has_ended = False
        self.has_closed = False  # its output
        self.has_shut = False  # its input
        # with which it ends, where that isn't the engine's own; a signal is below zero
        self.status: Optional[int] = None
        self.writes = 0  # to it
        self.reading = 0  # the write of which it reads, or 0 before the first
        self.last = 0  # the one of which it read when it ended
        self.do(engine.begin())

    def do(self, act: Act) -> None:
        """Does this."""
        then, _, status = act.then.partition(":")
        if status:
            self.status = int(status)
        if not self.has_closed:
            self.output += act.text * (FLOOD if then == FLOODS else 1)
        ends = then in (ENDS, LATE)
        if ends and not self.has_ended:
            self.last = self.reading
        self.has_ended = self.has_ended or ends
        self.has_closed = self.has_closed or ends or then == CLOSES
        self.has_shut = self.has_shut or then == SHUTS

    def write(self, commands: Sequence[bytes]) -> bool:
        """Sends these commands in one write, and returns whether the write succeeds."""
        self.writes += 1
        if self.has_shut or (self.has_ended and self.timing.breaks):
            return False
        self.unread += [(self.writes, command) for command in commands]
        if self.timing.is_quick:
            self.answer_all()
        return True

    def answer_all(self) -> None:
        """Lets it answer all that it was sent."""
        while self.unread and not self.has_ended:
            self.answer_one()

    def answer_one(self) -> None:
        """Lets it answer one command, or all where it doesn't cut its input into lines."""
        taken = self.unread if self.engine.takes_all else self.unread[:1]
        self.unread = self.unread[len(taken) :]
        self.reading, _ = taken[-1]
        text = b"".join(command for _, command in taken)
        if self.engine.logs:
            self.log.append(text)
        self.do(self.engine.answer(text))

    def may_have_broken(self) -> bool:
        """Returns whether a write may have failed, since the process had ended by then."""
        return self.has_ended and self.writes > self.last

    def ending(self) -> str:
        """Returns how the process has ended when its pipe is broken.

        One that doesn't soon end is ended then. Until that its input stays open.
        """
        if not self.has_ended and self.status is None:
            return why.RAN_ON
        status = self.engine.status if self.status is None else self.status
        return f"exit status {status}" if status >= 0 else f"signal {-status}"

    def is_silent(self) -> bool:
        """Returns whether a controller waits for it for ever."""
        is_open = not self.has_closed and not self.has_shut
        return is_open and replies.first(self.output).result is None

    def following(self) -> list[bytes]:
        """Returns what may come after all that was read, in the same read.

        That is nothing, and then what it has written when it has read one command more each time,
        up to all that it was sent. It is gone then.
        """
        texts = [self.output]
        while self.unread:
            self.answer_one()
            texts.append(self.output)
        return texts

    def read(self) -> bytes:
        """Returns what it wrote; nothing at the end of its output."""
        while self.unread and not self.output and not self.has_ended:
            self.answer_one()
        if not self.output and not self.has_closed:
            raise Undetermined("the engine is silent")
        text, self.output = self.output, b""
        return text


class Starter:
    """The engines of both sides, and how many processes of them were started."""

    def __init__(self, engines: Mapping[Colour, Engine], timing: Timing) -> None:
        self.engines, self.timing = engines, timing
        self.lives = {BLACK: 0, WHITE: 0}
        self.logs: dict[Colour, list[bytes]] = {BLACK: [], WHITE: []}

    def start(self, side: Colour) -> Process:
        """Returns a new process of this side."""
        self.lives[side] += 1
        engine = self.engines[side]
        if engine.keeps_log:
            self.logs[side].append(b"start\n")
        return Process(engine.start(self.lives[side]), self.logs[side], self.timing)


def play(match: Match, timing: Timing = TIMINGS[0]) -> Expected:
    """Returns the result of a match."""
    wrong = usage_error(match)
    if wrong:
        lines = [[f"twogtp: {line}\n".encode()] for line in wrong]
        return Expected(2, b"", lines[: 1 + match.why], {BLACK: b"", WHITE: b""})
    komi = values.read_komi(match.komi.encode())
    assert komi is not None
    setup = Setup(match.size, komi, match.handicap, match.most_moves, match.restarts)
    starter = Starter(match.engines, timing)
    output = b""
    errors = []
    status = 0
    for number in range(1, match.games + 1):
        game = Game(setup, starter)
        game.play()
        output += text_of(match, number, game.controller)
        errors += reports(number, game.controller) if match.why else []
        status = max(status, status_of(game.controller))
    return Expected(status, output, errors, {side: b"".join(starter.logs[side]) for side in SIDES})


# ---- usage errors

KOMI_LIMITS = (
    "komi may be a multiple of 0.5 from -999999999.5 to 999999999.5, with at most nine digits on"
    " each side of the point; write a negative one as --komi=-3.5"
)


def usage_error(match: Match) -> list[str]:
    """Returns the first usage error in the options, and what is allowed, which `--why` adds."""
    if values.read_komi(match.komi.encode()) is None:
        return ["bad komi", KOMI_LIMITS]
    if match.handicap and values.handicap_points(match.size, match.handicap) is None:
        allowed = allowed_handicaps(match.size)
        return ["bad handicap", f"on size {match.size} the handicap may {allowed}"]
    return []


def allowed_handicaps(size: int) -> str:
    """Returns how `--why` names the handicaps of a size."""
    most = max((stones for stones in range(10) if values.handicap_points(size, stones)), default=0)
    return f"be 0, or 2 to {most}" if most else "only be 0"


# ---- a game


class Game:
    """A game of a match: the controller, and the processes of both sides."""

    def __init__(self, setup: Setup, starter: Starter) -> None:
        self.controller = Controller(setup, starter.timing.most)
        self.starter = starter
        self.processes: dict[Colour, Process] = {}

    def play(self) -> None:
        """Plays the game to its end."""
        for _ in range(MOST_TURNS):
            action, side = self.controller.next()
            if side is None:
                return self.quit()
            if action == Action.START:
                self.start(side)
            elif action == Action.SEND:
                self.send(side)
            else:
                self.read(side)
        raise Undetermined("the match has no end")

    def start(self, side: Colour) -> None:
        """Starts an engine of this side. One that can't be started is lost."""
        self.controller.started(side)
        program = self.starter.engines[side].program
        if program and program.reason:
            self.lose(side, [why.not_started(program.reason, program.word)])
        else:
            self.processes[side] = self.starter.start(side)

    def send(self, side: Colour) -> None:
        """Sends this side all that it is sent before anything else is done."""
        commands = [self.controller.send(side)]
        while self.controller.next() == (Action.SEND, side):
            commands.append(self.controller.send(side))
        process = self.processes[side]
        if not process.write(commands):
            writes = self.controller.writes(side)[:1]
            self.lose(side, broken(process, why.WRITING_FAILED, writes))

    def read(self, side: Colour) -> None:
        """Reads what this side wrote.

        Where that loses the side, and the engine has ended, a write before may have failed.
        """
        controller, process = self.controller, self.processes[side]
        writes, before = controller.writes(side), len(controller.reported)
        text = process.read()
        if text:
            controller.receive(side, text, process.following)
        else:
            self.lose(side, broken(process, why.OUTPUT_ENDED, writes[:1]))
        if process.may_have_broken():
            for report in controller.reported[before:]:
                if report.is_loss:
                    report.texts.extend(broken(process, why.WRITING_FAILED, writes))

    def lose(self, side: Colour, texts: list[str]) -> None:
        """Lets this side fail, of which one of these texts is reported."""
        self.controller.reported.append(Report(side, texts))
        self.controller.lost(side)

    def quit(self) -> None:
        """Asks each side to quit that is up and has answered all."""
        for side in SIDES:
            if not self.controller.is_down(side) and not self.controller.has_unanswered(side):
                process = self.processes[side]
                process.write([b"quit\n"])
                process.answer_all()
                if process.is_silent():
                    raise Undetermined("the engine is silent when it is asked to quit")


def broken(process: Process, cause: str, writes: Sequence[Write]) -> list[str]:
    """Returns the texts of a pipe that is broken, for each write with what was read by then."""
    return [why.cut_off(unanswered, cause, process.ending(), rest) for unanswered, rest in writes]


# ---- what is printed


def text_of(match: Match, number: int, played: Controller) -> bytes:
    """Returns what is written of a game: its line, its record, its board and an empty line."""
    lines = [played.result_line(number)]
    lines += [played.record_line()] if match.record else []
    lines += [played.game.show(), ""] if match.show else []
    return "".join(line + "\n" for line in lines).encode()


def reports(number: int, played: Controller) -> list[list[bytes]]:
    """Returns what `--why` reports of a game: for each line the texts of which one is written."""
    return [
        [why.line(number, report.side, text) for text in report.texts] for report in played.reported
    ]


def status_of(played: Controller) -> int:
    """Returns the exit status of a game: 1 where a side was unfit or abandoned."""
    assert played.verdict is not None
    return 1 if played.verdict.startswith(("unfit", "abandoned")) else 0
