"""What is written: each text at once, and to the end."""
from __future__ import annotations

import contextlib
import errno
import os
from typing import Iterable, Sequence

FULL = (errno.ENOSPC, errno.EDQUOT, errno.EFBIG)  # the errors of a disk that is full
# errors that many games at once cause, and not the file
TOO_MANY_GAMES = (errno.EAGAIN, errno.ENOMEM, errno.EMFILE, errno.ENFILE)
ESCAPED = {
    code: f"\\x{code:02x}" for code in (*range(32), *range(127, 160)) if chr(code) not in "\t\n"
}
TRIAL_SIZE = 65536  # bytes that are written to try whether the disk is full
STDIN, STDOUT, STDERR = 0, 1, 2

program = "tournament"  # the name that messages begin with


class Mistake(Exception):
    """A mistake in the arguments or in a plan. Its text says what to write."""

    def __init__(self, text: str, printed: str = "") -> None:
        super().__init__(text)
        self.text, self.printed = text, printed  # the latter by another program


class NoStart(Exception):
    """An engine can't be started on this machine."""

    def __init__(self, text: str, engines: Sequence[str] = ()) -> None:
        super().__init__(text)
        self.text, self.engines = text, engines


def set_program(name: str) -> None:
    """Sets the name that messages begin with."""
    global program
    program = name


def write(descriptor: int, text: str) -> None:
    """Writes all of a text. Names and commands may have any bytes."""
    write_bytes(descriptor, os.fsencode(text))


def write_bytes(descriptor: int, left: bytes) -> None:
    """Writes all of these bytes."""
    while left:
        left = left[os.write(descriptor, left) :]


def read_lines(descriptor: int) -> list[str]:
    """Returns the lines of a file that is open, from its beginning."""
    text = os.pread(descriptor, os.fstat(descriptor).st_size, 0)
    return os.fsdecode(text).split("\n")


def report(text: str) -> None:
    """Writes a message on standard error, if anybody reads that, without control characters."""
    with contextlib.suppress(OSError):
        write(STDERR, f"{program}: {text.translate(ESCAPED)}\n")


def write_lines(descriptor: int, lines: Iterable[str], at_once: int = 5000) -> None:
    """Writes many lines."""
    waiting = []
    for line in lines:
        waiting.append(f"{line}\n")
        if len(waiting) == at_once:
            write(descriptor, "".join(waiting))
            waiting.clear()
    write(descriptor, "".join(waiting))


def hold_streams() -> None:
    """Opens the standard streams that are closed, so that no file gets their numbers. Writing to
    one fails as before."""
    for descriptor in (STDIN, STDOUT, STDERR):
        try:
            os.fstat(descriptor)
        except OSError:
            os.open(os.devnull, os.O_RDONLY)


def description(error: OSError) -> str:
    """Returns what an error of the system says."""
    if error.filename:
        return f"{os.fsdecode(error.filename)}: {error.strerror}"
    return str(error.strerror)


def write_error(folder: str) -> OSError | None:
    """Returns the error that a write in this folder meets, if one does. A file is written, which is
    removed."""
    place = f"{folder}/room.{os.getpid()}"
    try:
        try:
            file = os.open(place, os.O_WRONLY | os.O_CREAT, 0o666)
            try:
                write_bytes(file, bytes(TRIAL_SIZE))
                os.fsync(file)
            finally:
                os.close(file)
        finally:
            with contextlib.suppress(FileNotFoundError):
                os.unlink(place)
    except OSError as error:
        return error
    return None
