"""A terminal for a command."""
from __future__ import annotations

import fcntl
import os
import select
import subprocess
import termios

from tests.shared.processes import TIMEOUT

from .runner import Runner, default_signals


def control() -> None:
    """Makes the terminal that is this process's input the one that controls it."""
    default_signals()
    fcntl.ioctl(0, termios.TIOCSCTTY, 0)


class Terminal:
    """A terminal in which a command runs, and what the command has written there."""

    def __init__(self, runner: Runner, *command: object) -> None:
        self.end, streams = os.openpty()
        self.text = ""
        self.process: subprocess.Popen[str] = runner.start(
            *command, stdin=streams, stdout=streams, stderr=streams, preexec_fn=control
        )
        os.close(streams)

    def read(self) -> bool:
        """Reads more, and tells whether there is any before the end."""
        assert select.select([self.end], [], [], TIMEOUT)[0], self.text
        try:
            more = os.read(self.end, 65536)
        except OSError:  # nothing has the terminal open any more
            return False
        self.text += more.decode().replace("\r\n", "\n")
        return True

    def wait_for(self, text: str) -> None:
        """Waits until this text is written."""
        while text not in self.text:
            assert self.read(), self.text

    def type(self, keys: bytes) -> None:
        """Presses keys."""
        os.write(self.end, keys)

    def finish(self) -> int:
        """Waits for the end of the command, and returns its status."""
        while self.read():
            pass
        return self.process.wait(TIMEOUT)
