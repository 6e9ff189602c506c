"""The standard error of a game, of which the first and the last part are kept."""
from __future__ import annotations

import contextlib
import fcntl
import os
import signal

from .. import output

KEPT = 256 * 1024  # bytes of each of both parts
WHY = b"twogtp: "  # with which the lines begin that say why a side failed: these are all kept
MOST_WHY = 4 * KEPT  # bytes, for an engine that writes such lines itself
CHUNK, MOST_READS = 65536, 64


class Log:
    """The pipe into which all of a game write their standard error, and the file that gets it.

    The first part is written at once, and the last one at the end. SIGIO, which has to be waited
    for, says that something can be read.
    """

    def __init__(self, file: int) -> None:
        self.file = file
        self.pipe, self.end = os.pipe()
        self.room = KEPT  # bytes that are left of the first part
        self.last, self.why = bytearray(), bytearray()
        self.left_out = 0  # bytes
        signal.pthread_sigmask(signal.SIG_BLOCK, [signal.SIGIO])
        fcntl.fcntl(self.pipe, fcntl.F_SETOWN, os.getpid())
        fcntl.fcntl(self.pipe, fcntl.F_SETFL, os.O_NONBLOCK | os.O_ASYNC)

    def read(self) -> None:
        """Reads what is there, but not forever where much is written."""
        with contextlib.suppress(BlockingIOError):
            for _ in range(MOST_READS):
                self.add(os.read(self.pipe, CHUNK))

    def add(self, data: bytes) -> None:
        """Takes what was read."""
        if self.room:
            self.write(data[: self.room])
        self.last += data[self.room :]
        self.room = max(0, self.room - len(data))
        if len(self.last) > 2 * KEPT:
            self.shorten()

    def shorten(self) -> None:
        """Leaves out what is in front of the last part, up to the end of a line if possible, except
        the lines that are always kept."""
        count = len(self.last) - KEPT
        end = self.last.find(b"\n", count) + 1 or self.last.rfind(b"\n") + 1 or count
        for line in bytes(self.last[:end]).splitlines(keepends=True):
            if line.startswith(WHY) and len(self.why) < MOST_WHY:
                self.why += line
            else:
                self.left_out += len(line)
        del self.last[:end]

    def write(self, data: bytes) -> None:
        """Writes into the file, if there is room: a game may have a result without its log."""
        with contextlib.suppress(OSError):
            output.write_bytes(self.file, data)

    def close(self) -> None:
        """Writes the last part, once all that could write has ended."""
        self.read()
        if len(self.last) > KEPT:
            self.shorten()
        if self.left_out:
            self.write(b"\ntournament: %d bytes are left out here\n" % self.left_out)
        self.write(bytes(self.why + self.last))
        self.last.clear()
        self.why.clear()
        self.left_out = 0
