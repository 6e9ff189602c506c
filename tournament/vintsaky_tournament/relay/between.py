"""The relay between twogtp and an engine: starts the engine, and passes the bytes both ways.

The file of the game has parts, separated by zero bytes: `notes FILE`, `folder FOLDER`, and `black
WORD` for each word of the command of that colour. It may have `limit SECONDS`, for each answer
except that to genmove, `move-limit SECONDS`, for that, `clock CLOCK` with `margin SECONDS`, and
`opening MOVE ..`: then the engine is sent the moves with which the game begins by `play`, in place
of `genmove`. The notes get the moves as they are played, and how the engine ended. `held FILE
NUMBER` is a pipe that the game's process holds, and the number of its inode. twogtp passes an
engine three streams only, so the pipe is opened by its name.

An engine that was late, or out of time by its clock, is ended with all that it started, and isn't
started again in this game. The engine ends with this process; what it started is ended by the
game's process. This process runs as long as somebody has the engine's output and the game's process
lives: once that has ended, all that is below this one is ended at once.

status: the engine's, or the signal that ended it; 124 if an answer was late; 125 if the notes can't
        be written, or the game is over; 126 or 127 if the engine can't be started
"""
from __future__ import annotations

import os
import select
import time

from .. import processes
from ..processes import signal
from .conversation import Conversation

TYPE_CHECKING = False  # as of typing, whose import takes longer than all of this
if TYPE_CHECKING:
    from collections.abc import Collection
    from typing import NoReturn

    from .timing import Timing

CHUNK = 65536  # bytes that are read at once
LATE, OVER = 124, 125
PAUSE = 0.2  # seconds for which an engine may run on once its output has ended
ABANDONED = 5  # seconds for which an engine may run on without anybody to write to it or read it
SAME_SIGNAL = 0.5  # seconds in which twogtp ends, too, where the engine was asked to end
STDIN, STDOUT, STDERR = 0, 1, 2


class Exit(Exception):
    """Ends this process with a status."""

    def __init__(self, status: int) -> None:
        super().__init__(status)
        self.status = status


def report(colour: str, text: str) -> None:
    """Writes a line on standard error."""
    try:
        os.write(STDERR, f"between: {colour}: {text}\n".encode(errors="surrogateescape"))
    except OSError:
        pass


class Game:
    """What the file of the game says of this colour's engine."""

    def __init__(self, text: bytes, colour: str) -> None:
        limits = ("limit", "move-limit", "clock", "margin")
        keys = ("notes", "folder", "held", "opening", colour, *limits)
        parts: dict[str, list[str]] = {key: [] for key in keys}
        for part in os.fsdecode(text).split("\0"):
            key, _, value = part.partition(" ")
            if key in parts:
                parts[key].append(value)
        (self.place,), (self.folder,), self.command = parts["notes"], parts["folder"], parts[colour]
        self.limit, self.move_limit = (
            float(parts[key][0]) if parts[key] else None for key in ("limit", "move-limit")
        )
        self.clock = parts["clock"][0] if parts["clock"] else None
        self.margin = float(parts["margin"][0]) if parts["margin"] else 0.0
        self.opening = [move.upper().encode() for line in parts["opening"] for move in line.split()]
        self.notes = os.open(self.place, os.O_RDWR | os.O_APPEND | os.O_CLOEXEC)
        self.held = [end for pipe in parts["held"] for end in open_held(*pipe.split(" "))]
        self.colour = colour

    def wait(
        self, seconds: float | None, reads: Collection[int] = (), writes: Collection[int] = ()
    ) -> list[int]:
        """Waits until one of these can be read or written, and returns which can be read.

        Ends this process where the game's process has ended.
        """
        readable, _, _ = select.select([*reads, *self.held], writes, [], seconds)
        if any(end in readable for end in self.held):
            raise Exit(OVER)
        return readable

    def lines(self) -> list[str]:
        """Returns the lines of the notes."""
        return os.pread(self.notes, os.fstat(self.notes).st_size, 0).decode("latin-1").split("\n")

    def was_late(self) -> bool:
        """Returns whether an engine of this colour was late in the game, or out of time."""
        late = ([self.colour, "late"], [self.colour, "out-of-time"])
        return any(line.split(" ")[1:3] in late for line in self.lines())

    def timing(self) -> Timing | None:
        """Returns the clock of this colour, of which earlier starts have used what the notes say;
        None without a clock."""
        if self.clock is None:
            return None
        from .clock import read_clock  # which most games don't need
        from .timing import Timing

        timing = Timing(read_clock(self.clock), self.margin)
        timing.charge_notes(self.lines(), self.colour)
        return timing

    def write_note(self, text: str) -> None:
        """Writes a note. Where it can't be written whole the notes are removed, and so the game is
        known to have no result."""
        data = text.encode("latin-1", "replace")
        try:
            if os.write(self.notes, data) == len(data):
                return
            reason = "No space left on device"
        except OSError as error:
            reason = error.strerror
        try:
            os.unlink(self.place)
        except OSError:
            pass
        report(self.colour, f"{self.place} can't be written: {reason}")
        raise Exit(OVER)


def open_held(place: str, inode: str) -> list[int]:
    """Opens the pipe that the game's process holds; nothing where this system lets nobody open it.

    Raises FileNotFoundError where that process has ended, also if its number is used again.
    """
    try:
        held = os.open(place, os.O_RDONLY | os.O_NONBLOCK | os.O_CLOEXEC)
    except PermissionError:
        return []
    if os.fstat(held).st_ino != int(inode):
        raise FileNotFoundError
    return [held]


class Engine:
    """The process of the engine."""

    def __init__(self, game: Game) -> None:
        (from_caller, to_engine), (self.output, from_engine) = os.pipe(), os.pipe()
        self.input: int | None = to_engine  # None once it is closed
        self.number, self.failure = processes.start_program(
            game.command, game.folder, (from_caller, from_engine, STDERR)
        )
        os.close(from_caller)
        os.close(from_engine)
        os.set_blocking(to_engine, False)

    def processor_seconds(self) -> float:
        """Returns how long processors have worked for it, and for what it started, as far as that
        runs, or was waited for."""
        ticks, left = 0, [self.number]
        for process in left:
            left += processes.children_of(process)
            try:
                with open(f"/proc/{process}/stat", "rb", buffering=0) as file:
                    ticks += sum(map(int, file.read().rpartition(b")")[2].split()[11:15]))
            except OSError:
                pass
        return ticks / os.sysconf("SC_CLK_TCK")

    def wait(self) -> int:
        """Waits for its end, and returns the status of waitpid."""
        return os.waitpid(self.number, 0)[1]

    def wait_for(self, seconds: float) -> int | None:
        """Waits for its end for so long, and returns the status; None where it runs on."""
        until = time.monotonic() + seconds
        while True:
            number, status = os.waitpid(self.number, os.WNOHANG)
            if number:
                return status
            if time.monotonic() > until:
                return None
            time.sleep(0.002)


class Relay:
    """The bytes that are passed both ways."""

    def __init__(self, game: Game, conversation: Conversation, engine: Engine) -> None:
        self.game, self.conversation, self.engine = game, conversation, engine
        self.to_engine = self.to_caller = b""
        self.reads = {STDIN, engine.output}
        self.caller_left: float | None = None  # when twogtp was first seen to be gone
        os.set_blocking(STDOUT, False)

    def run(self) -> bool:
        """Passes bytes until the engine's output has ended. Returns whether an answer is late."""
        output, is_last_look = self.engine.output, False
        while True:
            pause = self.conversation.seconds_to_wait()
            if pause is not None and pause <= 0:
                if is_last_look:
                    return True
                pause = 0
            is_last_look = pause == 0  # in which an answer counts that is there by then
            if STDIN not in self.reads:
                pause = PAUSE if pause is None else min(PAUSE, pause)
                self.end_if_abandoned()
            reads = self.reads if len(self.to_caller) < CHUNK else self.reads - {output}
            readable = self.game.wait(pause, reads, self.writes())
            if STDIN in readable:
                self.read_caller()
            if output in readable:
                data = os.read(output, CHUNK)
                self.to_caller += self.conversation.from_engine(data)
                self.to_engine += self.conversation.take_released()
                if not data:
                    return False
            self.write()

    def writes(self) -> list[int]:
        """Returns the descriptors for which bytes wait."""
        ends = [STDOUT] if self.to_caller else []
        return [*ends, self.engine.input] if self.to_engine and self.engine.input else ends

    def write(self) -> None:
        """Writes what can be written, and closes the engine's input behind twogtp's last byte."""
        if self.to_engine and self.engine.input is not None:
            self.to_engine = write_some(self.engine.input, self.to_engine)
        if self.to_caller:
            self.to_caller = write_some(STDOUT, self.to_caller)
        if STDIN not in self.reads and not self.to_engine and self.engine.input is not None:
            os.close(self.engine.input)
            self.engine.input = None

    def end_if_abandoned(self) -> None:
        """Ends the engine where twogtp is gone, and the engine runs on for too long: nobody else
        would end it."""
        ends = select.poll()
        ends.register(STDOUT, 0)
        if not ends.poll(0):
            return
        self.caller_left = self.caller_left or time.monotonic()
        if time.monotonic() > self.caller_left + ABANDONED:
            processes.end_descendants()
            raise Exit(LATE)

    def read_caller(self) -> None:
        """Reads what twogtp wrote. At its end a note says whether it waited for an answer."""
        data = os.read(STDIN, CHUNK)
        self.to_engine += self.conversation.from_controller(data)
        if not data:
            self.reads.discard(STDIN)
            if self.conversation.waiting:
                self.conversation.note_no_answer("waited")
            for command in self.conversation.waiting:
                command.is_noted = True

    def finish(self) -> None:
        """Passes on what is left, once the engine's output has ended."""
        os.set_blocking(STDOUT, True)
        held = self.conversation.held if self.conversation.in_answer else None
        left = self.to_caller + (held or b"")
        while left:
            left = write_some(STDOUT, left)

    def caller_is_gone(self, seconds: float) -> bool:
        """Returns whether twogtp has ended, or does in so many seconds."""
        if STDIN in self.reads and select.select([STDIN], [], [], seconds)[0]:
            self.read_caller()
        return STDIN not in self.reads


def write_some(end: int, data: bytes) -> bytes:
    """Writes what can be written at once, and returns the rest; nothing where nobody reads."""
    try:
        return data[os.write(end, data) :]
    except BlockingIOError:
        return data
    except BrokenPipeError:
        return b""


def description(status: int | None) -> str:
    """Returns how an engine ended, by this status of waitpid."""
    if status is None:
        return "its output ended, but it ran on"
    if os.WIFSIGNALED(status):
        return f"signal {os.WTERMSIG(status)}"
    return f"exit status {os.WEXITSTATUS(status)}"


def was_asked_to_end(status: int | None) -> bool:
    """Returns whether it ended by a signal that twogtp gets, too, where a game is stopped."""
    return status is not None and os.WIFSIGNALED(status) and os.WTERMSIG(status) in processes.ENDING


def end_as(status: int) -> NoReturn:
    """Ends as an engine that ended with this status, but without a dump of memory."""
    if os.WIFSIGNALED(status):
        number = os.WTERMSIG(status)
        processes.prctl(processes.DUMPABLE, 0, 0, 0, 0)
        if number != signal.SIGKILL:
            signal.signal(number, signal.SIG_DFL)
        os.kill(os.getpid(), number)
    raise Exit(processes.shell_status(status))


def play(game: Game) -> NoReturn:
    """Starts the engine of a game and passes the bytes, until it has ended. Ends as it."""
    limits = game.limit, game.move_limit
    conversation = Conversation(game.colour, limits, game.opening, game.write_note, game.timing())
    if game.was_late():
        conversation.note("stays ended")
        report(game.colour, "it was late, and isn't started again")
        raise Exit(LATE)
    processes.adopt_orphans()
    engine = Engine(game)
    if engine.failure:
        conversation.note(f"not started: {engine.failure}")
        report(game.colour, f"not started: {engine.failure}")
        end_as(engine.wait())
    if game.move_limit is not None or conversation.timing:
        conversation.processor_seconds = engine.processor_seconds
    relay = Relay(game, conversation, engine)
    if relay.run():
        end_late(relay)
    relay.finish()
    status = engine.wait_for(PAUSE)
    waiting = conversation.waiting
    is_early = waiting and waiting[0].name != b"quit" or not conversation.has_answered
    seconds = SAME_SIGNAL if is_early and was_asked_to_end(status) else 0
    if not relay.caller_is_gone(seconds) and is_early:
        conversation.note_no_answer("ended", description(status))
    if status is None:
        os.close(STDOUT)
        while status is None:
            game.wait(PAUSE)
            status = engine.wait_for(0)
    end_as(status)


def end_late(relay: Relay) -> NoReturn:
    """Ends an engine whose answer is late, or that is out of time."""
    conversation = relay.conversation
    event = conversation.late_event()
    if STDIN in relay.reads:
        conversation.note_no_answer(event)
    command = conversation.waiting[0].text.decode("latin-1")
    problem = "no answer in time to" if event == "late" else "out of time at"
    report(conversation.colour, f"{problem} {command!r}")
    processes.end_descendants()
    raise Exit(LATE)


def main(text: bytes, colour: str) -> int:
    """Runs the engine of this colour in the game whose file has this text. Returns the status."""
    for number in processes.ENDING:  # whoever asks a game to end asks twogtp and the engine, too
        signal.signal(number, signal.SIG_IGN)
    try:
        game = Game(text, colour)
    except FileNotFoundError:
        report(colour, "the game is over")
        return OVER
    try:
        processes.set_process_name(f"between {colour}")
        play(game)
    except Exit as exit:
        if exit.status == OVER:
            processes.end_descendants()
        return exit.status
