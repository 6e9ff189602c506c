"""An engine that notes what its standard streams are, and what it reads.

usage: noting_engine.py SIDE FOLDER [ENGINE]

FOLDER/SIDE.streams gets a line each: what its standard error is, what comes of a write to it, and
what its parent has at 0, 1 and 2. FOLDER/SIDE.read gets each byte that it reads. It always passes;
where an ENGINE is given, that one answers.
"""
from __future__ import annotations

import os
import re
import signal
import subprocess
import sys
from typing import IO, NamedTuple, Optional

MODES = {os.O_RDONLY: "to read", os.O_WRONLY: "to write", os.O_RDWR: "for both"}


def open_file(process: object, number: int) -> str:
    """Returns what a process has open at a number, and how."""
    try:
        path = os.readlink(f"/proc/{process}/fd/{number}")
        with open(f"/proc/{process}/fdinfo/{number}") as lines:
            flags = int(re.findall(r"flags:\s+(\d+)", lines.read())[0], 8)
    except FileNotFoundError:
        return "closed"
    return f"{path} {MODES[flags & os.O_ACCMODE]}"


def speak(side: str) -> str:
    """Writes a line to the standard error, and returns what comes of it."""
    try:
        os.write(2, f"{side} speaks\n".encode())
    except OSError as error:
        return error.strerror or ""
    return "written"


class Engine(NamedTuple):
    """The pipes of an engine."""

    input: IO[bytes]
    output: IO[bytes]

    @classmethod
    def start(cls, program: str) -> Engine:
        """Starts an engine."""
        process = subprocess.Popen(program, stdin=-1, stdout=-1, bufsize=0)
        assert process.stdin and process.stdout
        return cls(process.stdin, process.stdout)


def reply_to(engine: Optional[Engine], command: bytes) -> bytes:
    """Returns the reply of the engine, or that of one that passes where it is None."""
    if engine is None:
        number, word = re.findall(rb"^(\d*) ?(\w*)", command)[0]
        return b"=" + number + (b" pass" if word == b"genmove" else b"") + b"\n\n"
    engine.input.write(command + b"\n")
    reply = b""
    while not reply.endswith(b"\n\n"):
        reply += engine.output.readline()
    return reply


def main(side: str, folder: str, program: str = "") -> None:
    # to be ended by the end of the one that reads, like a program in C
    signal.signal(signal.SIGPIPE, signal.SIG_DFL)
    own_errors = [open_file("self", 2), speak(side)]
    with open(f"{folder}/{side}.streams", "w") as notes:
        streams = [open_file(os.getppid(), number) for number in range(3)]
        print(*own_errors, *streams, sep="\n", file=notes)
    engine = Engine.start(program) if program else None
    unread = b""
    with open(f"{folder}/{side}.read", "wb", 0) as copy:
        while data := os.read(0, 4096):
            copy.write(data)
            *commands, unread = (unread + data).split(b"\n")
            for command in commands:
                os.write(1, reply_to(engine, command))
                if re.fullmatch(rb"\d* ?quit", command):
                    return


if __name__ == "__main__":
    main(*sys.argv[1:])
