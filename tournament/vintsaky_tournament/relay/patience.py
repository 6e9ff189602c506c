"""Runs an engine, passes its input and output on, and ends it if an answer takes too long.

There are two processes. The first one, the guard, starts the engine, and waits for the engine's
end, or for the end of a pipe that the other process holds. Then the guard ends all that is left.
The other process passes the bytes on. If the guard ends first, the other process ends all that is
left.
"""
from __future__ import annotations

import collections
import os
import select
import signal
import time

from .. import processes

TYPE_CHECKING = False  # as of typing, whose import takes longer than all of this
if TYPE_CHECKING:
    from typing import NoReturn

BUFFER = 65536  # bytes that wait to be passed on, at most
LATE = 124  # the status where an answer was late
STDIN, STDOUT, STDERR = 0, 1, 2
ENDING = (signal.SIGINT, signal.SIGTERM, signal.SIGHUP)  # by which only the other process ends
USAGE = "write patience [--start SECONDS] SECONDS ENGINE [ARGUMENT ..], with seconds above 0"


def report(text: str) -> None:
    """Writes a line on standard error."""
    os.write(STDERR, f"patience: {text}\n".encode())


class Waiting:
    """A command whose answer is awaited."""

    def __init__(self, text: bytes, limit: float) -> None:
        self.text, self.limit, self.since = text, limit, time.monotonic()


class Answers:
    """The commands whose answers are awaited."""

    def __init__(self, first_limit: float, limit: float) -> None:
        self.next_limit, self.limit = first_limit, limit
        self.waiting: collections.deque[Waiting] = collections.deque()
        self.unfinished_line = b""
        self.at_line_start, self.in_answer = True, False  # of the engine's output
        self.last_answer = 0.0  # when it ended

    def add_commands(self, data: bytes) -> None:
        """Takes bytes that were passed to the engine. A line that is empty without its comment and
        control characters is no command."""
        *lines, self.unfinished_line = (self.unfinished_line[:BUFFER] + data).split(b"\n")
        for line in lines:
            bare = line.split(b"#")[0].replace(b"\t", b" ")
            text = bytes(byte for byte in bare if 32 <= byte != 127).strip()
            if text:
                self.waiting.append(Waiting(text, self.next_limit))
                self.next_limit = self.limit

    def add_output(self, data: bytes) -> None:
        """Takes bytes that the engine wrote. An answer ends at an empty line."""
        for line in data.replace(b"\r", b"").splitlines(keepends=True):
            if line == b"\n" and self.at_line_start and self.in_answer:
                self.in_answer, self.last_answer = False, time.monotonic()
                if self.waiting:
                    self.waiting.popleft()
            elif line != b"\n" or not self.at_line_start:
                self.in_answer = True
            self.at_line_start = line.endswith(b"\n")

    def seconds_left(self) -> float | None:
        """Returns the time left for the next answer; None where none is awaited."""
        if not self.waiting:
            return None
        command = self.waiting[0]
        return max(command.since, self.last_answer) + command.limit - time.monotonic()


# ---- the guard


def start(command: list[str]) -> int:
    """Starts the engine, on the standard streams of this process. Returns its process."""
    process = os.fork()
    if not process:
        become(command)
    return process


def become(command: list[str]) -> NoReturn:
    """Replaces this process by the engine."""
    status = processes.NOT_EXECUTABLE
    try:
        for number in (*ENDING, signal.SIGPIPE, signal.SIGXFSZ):
            signal.signal(number, signal.SIG_DFL)
        os.execvp(command[0], command)
    except OSError as error:
        report(f"{command[0]} can't be started: {error.strerror}")
        status = processes.NOT_FOUND if isinstance(error, FileNotFoundError) else status
    os._exit(status)


def guard(command: list[str], from_caller: int, from_engine: int, held: int) -> int:
    """Starts the engine, and waits for its end or for that of the pipe. Then it ends all that is
    left. Returns the engine's status."""
    processes.adopt_orphans()
    os.setsid()
    for number in ENDING:
        signal.signal(number, signal.SIG_IGN)
    child_ended, wakeup = os.pipe()
    os.set_blocking(wakeup, False)
    signal.set_wakeup_fd(wakeup, warn_on_full_buffer=False)
    signal.signal(signal.SIGCHLD, lambda *_: None)
    os.dup2(from_caller, STDIN)
    os.dup2(from_engine, STDOUT)
    engine = start(command)
    ended: int | None = None
    for end in (from_caller, from_engine, STDIN, STDOUT):
        os.close(end)
    while ended is None and held not in select.select([held, child_ended], [], [])[0]:
        os.read(child_ended, BUFFER)
        ended = reap(engine)
    processes.end_descendants()
    return 128 + signal.SIGKILL if ended is None else ended


def reap(engine: int) -> int | None:
    """Waits for children that have ended. Returns the engine's status, if it is among them."""
    while processes.children_of(os.getpid()):
        number, status = os.waitpid(-1, os.WNOHANG)
        if number == engine:
            return processes.shell_status(status)
        if not number:
            break
    return None


# ---- the other process


class Guard:
    """The guard, as the other process sees it."""

    def __init__(self, command: list[str]) -> None:
        (from_caller, to_engine), (self.output, from_engine) = os.pipe(), os.pipe()
        (held, self.holds), (self.alive, lives) = os.pipe(), os.pipe()
        self.input: int | None = to_engine  # None once it is closed
        self.ended: int | None = None
        self.number = os.fork()
        if not self.number:
            for end in (to_engine, self.output, self.holds, self.alive):
                os.close(end)
            os._exit(guard(command, from_caller, from_engine, held))
        for end in (from_caller, from_engine, held, lives):
            os.close(end)
        os.set_blocking(to_engine, False)

    def status(self) -> int:
        """Waits for its end, and returns the engine's status. What it left is ended, where it was
        killed."""
        if self.ended is None:
            self.ended = processes.shell_status(os.waitpid(self.number, 0)[1])
            processes.end_descendants()
        return self.ended


def write_some(end: int, data: bytes) -> int:
    """Writes what the engine takes now, and returns how many bytes that are: all of them where it
    reads no more, so that their answers are awaited in vain."""
    try:
        return os.write(end, data)
    except BlockingIOError:
        return 0
    except OSError:
        return len(data)


def relay(answers: Answers, keeper: Guard) -> bytes | None:
    """Passes the bytes both ways until the engine's output has ended. Returns the command whose
    answer was late, if one was."""
    output, alive = keeper.output, keeper.alive
    to_engine, to_caller, reads = b"", b"", {STDIN, output, alive}
    while output in reads or to_caller:
        left = answers.seconds_left()
        if left is not None and left <= 0:
            return answers.waiting[0].text
        wanted = {end for end in reads if len(to_engine if end == STDIN else to_caller) < BUFFER}
        writes = [STDOUT] if to_caller else []
        if to_engine and keeper.input is not None:
            writes.append(keeper.input)
        readable, writable, _ = select.select(wanted, writes, [], left)
        for end in readable:
            data = os.read(end, BUFFER)
            reads -= set() if data else {end}
            if end == STDIN:
                to_engine += data
            else:
                answers.add_output(data)
                to_caller += data
        if STDOUT in writable:
            to_caller = to_caller[os.write(STDOUT, to_caller[: select.PIPE_BUF]) :]
        if to_engine and keeper.input is not None:
            count = write_some(keeper.input, to_engine)
            answers.add_commands(to_engine[:count])
            to_engine = to_engine[count:]
        if alive not in reads:
            keeper.status()
        if keeper.input is not None and STDIN not in reads and not to_engine:
            os.close(keeper.input)
            keeper.input = None
    return None


def run(first_limit: float, limit: float, command: list[str]) -> int:
    """Runs an engine with these limits, and returns the status."""
    processes.adopt_orphans()
    keeper = Guard(command)
    own = None  # the status that isn't the engine's
    try:
        late = relay(Answers(first_limit, limit), keeper)
        if late:
            own = LATE
            report(f"no answer in time to {late[:80].decode('latin-1')!r}")
    except BrokenPipeError:  # nobody reads what the engine writes
        own = 128 + signal.SIGPIPE
    if own:
        os.close(keeper.holds)
    elif not select.select([keeper.alive], [], [], 0.2)[0]:
        os.close(STDOUT)  # the engine closed its output, and runs on
    ended = keeper.status()
    return own or ended


def main(words: list[str]) -> int:
    """Runs the engine of these arguments, and returns the status."""
    try:
        first = float(words.pop(0)) if words[:1] == ["--start"] and words.pop(0) else None
        limit = float(words.pop(0))
        first_limit = limit if first is None else first
        if not words or not all(0 < seconds < 1e9 for seconds in (limit, first_limit)):
            raise ValueError
    except (IndexError, ValueError):
        report(USAGE)
        return 2
    try:
        return run(first_limit, limit, words)
    except KeyboardInterrupt:
        return 128 + signal.SIGINT
