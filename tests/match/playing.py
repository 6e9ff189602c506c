"""Matches between the engines of tests/references/controller, played by the built twogtp."""
from __future__ import annotations

import contextlib
import shlex
from pathlib import Path
from subprocess import DEVNULL, PIPE
from typing import Any, Iterable, Iterator, Mapping, NamedTuple, Sequence

from tests.references.controller.controller import SIDES
from tests.references.controller.matches import Match, Result
from tests.references.engine.values import Colour
from tests.shared.processes import Process, is_alive, process_tree, wait_until


class Player(NamedTuple):
    """Plays matches in an environment that has the programs. Each engine has a file for its log."""

    environment: Mapping[str, str]
    folder: Path

    def log_files(self) -> dict[Colour, Path]:
        """Returns the files in which the engines log what they are sent."""
        return {side: self.folder / side for side in SIDES}

    def logs(self) -> dict[Colour, bytes]:
        """Returns what the engines have logged."""
        return {side: file.read_bytes() for side, file in self.log_files().items()}

    @contextlib.contextmanager
    def start(self, match: Match, **options: Any) -> Iterator[Process]:
        """Starts a match, and ends it."""
        files = self.log_files()
        for file in files.values():
            file.write_bytes(b"")
        with process_tree(match.command(files), env=self.environment, **options) as process:
            yield process

    def play(self, match: Match) -> Result:
        """Returns the result of a match, of which no process may be left."""
        with self.start(match, stdin=DEVNULL, stdout=PIPE, stderr=PIPE) as process:
            output, errors = process.communicate()
            assert wait_until(lambda: not is_alive(process.pid)), "a process is left"
        return Result(process.returncode, output, errors, self.logs())


def commands(logs: Mapping[Colour, bytes], sides: Iterable[Colour]) -> dict[Colour, str]:
    """Returns the commands that the engines of these sides have logged."""
    return {side: logs[side].replace(b"start\n", b"").decode() for side in sides}


def command_line(match: Match) -> str:
    """Returns a command of the shell that plays a match, with the logs in its folder."""
    return shlex.join(match.command({side: Path(side) for side in SIDES}))


def has_lines(errors: bytes, wanted: Sequence[Sequence[str]]) -> bool:
    """Returns whether a standard error has these lines: of each one of its texts."""
    lines = errors.decode(errors="backslashreplace").splitlines(keepends=True)
    return len(lines) == len(wanted) and all(line in texts for line, texts in zip(lines, wanted))
