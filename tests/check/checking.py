"""How the tests run gtp_check on an engine."""
from __future__ import annotations

import contextlib
import sys
from pathlib import Path
from subprocess import DEVNULL, PIPE
from typing import Any, Callable, Iterator, List, Mapping, NamedTuple, Sequence, Type

from tests.engines.wrong.plain import Plain
from tests.shared.processes import TIMEOUT, TOP, Process, is_alive, process_tree, run, wait_until

from .reports import Report, read_report

LIMIT = 10 * TIMEOUT
PYTHON = f"{sys.executable} -S"  # -S leaves out what a machine adds to each start of Python
OURS = "gtp_engine --policy random"
WRONG = f"{PYTHON} tests/engines/wrong"


class Check(NamedTuple):
    """What a check has written, and its status."""

    status: int
    output: str
    errors: str

    @property
    def report(self) -> Report:
        """Returns what the output says."""
        return read_report(self.output)


class Checker(NamedTuple):
    """Runs gtp_check in an environment that has the programs. An engine may keep files there."""

    program: Path
    environment: Mapping[str, str]

    @contextlib.contextmanager
    def start(self, engine: str, *options: str, **streams: Any) -> Iterator[Process]:
        """Starts a check of an engine, and ends it."""
        command = [self.program, *options, engine]
        how = {"cwd": TOP, "env": self.environment, "stdin": DEVNULL, "encoding": "latin-1"}
        with process_tree(command, LIMIT, **how, **streams) as process:
            yield process

    def check(self, engine: str, *options: str) -> Check:
        """Returns what comes of a check of an engine, of which no process may be left."""
        with self.start(engine, *options, stdout=PIPE, stderr=PIPE) as process:
            output, errors = process.communicate()
            assert wait_until(lambda: not is_alive(process.pid)), "a process is left"
        return Check(process.returncode, output, errors)

    def run(self, engine: str, text: str) -> str:
        """Returns what an engine writes that reads this text."""
        done = run(engine.split(), text, cwd=TOP, env=self.environment, encoding="latin-1")
        return str(done.stdout)


def only(*lessons: str) -> List[str]:
    """Returns the options that choose these lessons."""
    return [word for lesson in lessons for word in ("--only", lesson)]


def notes_of(report: Report) -> List[str]:
    """Returns what the last lines say, except of the lessons that the options leave out."""
    return [note for note in report.notes if not note.startswith("not asked, as the options say: ")]


class Ended(NamedTuple):
    """What an engine has written after each read, and the status of its process."""

    outputs: List[str]
    status: int


RunEngine = Callable[[Type[Plain], Sequence[str], Sequence[str]], Ended]
