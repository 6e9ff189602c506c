"""Gives an engine its input: all of it at once, byte after byte, or in random pieces."""
from __future__ import annotations

import contextlib
import os
import random
import subprocess
import threading
from pathlib import Path
from typing import Iterator, NamedTuple, Optional, Sequence, Union

from tests.references.engine import engine
from tests.references.engine.conversations import Conversation
from tests.shared.processes import TIMEOUT, Command, process_tree, run

NO_END = f"still running after {TIMEOUT} seconds"


class Result(NamedTuple):
    """How an engine has ended, and what it has written."""

    status: Union[int, str]
    output: bytes
    errors: bytes


def feed_at_once(program: Path, arguments: Sequence[str], data: bytes) -> Result:
    """Returns the result of an engine that is given all of its input at once."""
    try:
        done = run([program, *arguments], data)
    except subprocess.TimeoutExpired as expired:
        return Result(NO_END, expired.stdout or b"", expired.stderr or b"")
    return Result(done.returncode, done.stdout, done.stderr)


def feed_bytewise(program: Path, arguments: Sequence[str], data: bytes) -> Result:
    """Returns the result of an engine that is given one byte after the other."""
    with running_engine(program, arguments) as running:
        for place in range(len(data)):
            running.write(data[place : place + 1])
        running.close_input()
        return running.result()


def feed_in_pieces(
    program: Path, arguments: Sequence[str], conversation: Conversation, rng: random.Random
) -> Result:
    """Returns the result of an engine that is given its input in random pieces.

    At times the next piece is held back until each reply is there that is due by then. After `quit`
    the input stays open, and the engine has to end all the same.
    """
    reference = engine.start(conversation.options)
    assert reference is not None
    longest = max(rng.choice([1, 3, 20, 200, 3000]), len(conversation.data) // 200)
    patience = rng.choice([0, 0.1, 1])
    place = 0
    due = b""
    with running_engine(program, arguments) as running:
        while place < len(conversation.data) and not reference.ended:
            piece = conversation.data[place : place + rng.randint(1, longest)]
            place += len(piece)
            due += reference.feed(piece)
            if not running.write(piece) and not reference.ended:
                return running.result("its input was closed")
            if rng.random() < patience and not running.has_written(due):
                return running.result(f"replies that were due after {place} bytes are missing")
        if not reference.ended:
            running.close_input()
        return running.result()


class RunningEngine:
    """An engine with pipes. A thread reads the engine's output."""

    def __init__(self, process: subprocess.Popen[bytes]) -> None:
        self.process = process
        self.output = b""
        self.arrival = threading.Condition()
        self.reader = threading.Thread(target=self.read_all, daemon=True)
        self.reader.start()

    def read_all(self) -> None:
        """Reads what the engine writes, until its output ends."""
        assert self.process.stdout is not None
        while piece := os.read(self.process.stdout.fileno(), 65536):
            with self.arrival:
                self.output += piece
                self.arrival.notify()

    def write(self, piece: bytes) -> bool:
        """Writes to the engine, and returns whether the engine still reads."""
        assert self.process.stdin is not None
        try:
            self.process.stdin.write(piece)
        except BrokenPipeError:
            return False
        return True

    def close_input(self) -> None:
        """Ends the engine's input."""
        assert self.process.stdin is not None
        with contextlib.suppress(BrokenPipeError):
            self.process.stdin.close()

    def has_written(self, due: bytes) -> bool:
        """Waits for this output, and returns whether the engine has written only that."""
        with self.arrival:
            self.arrival.wait_for(
                lambda: len(self.output) >= len(due) or not due.startswith(self.output), TIMEOUT
            )
            return self.output.startswith(due)

    def result(self, failure: Optional[str] = None) -> Result:
        """Returns the result of the engine. Where nothing has failed, waits for its end."""
        status: Union[int, str]
        try:
            status = failure or self.process.wait(TIMEOUT)
        except subprocess.TimeoutExpired:
            status = NO_END
        if isinstance(status, str):
            self.process.kill()
        self.reader.join(TIMEOUT)
        assert self.process.stderr is not None
        return Result(status, self.output, self.process.stderr.read())


@contextlib.contextmanager
def running_engine(program: Path, arguments: Sequence[str]) -> Iterator[RunningEngine]:
    """Starts an engine, and ends it."""
    pipe = subprocess.PIPE
    command: Command = [program, *arguments]
    with process_tree(command, stdin=pipe, stdout=pipe, stderr=pipe, bufsize=0) as process:
        yield RunningEngine(process)
