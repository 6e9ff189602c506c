"""Refuses a program each of its requests for memory in turn.

Each time it ends with status 3 and reports that, with a beginning of its output written, or as if
nothing had been refused. No process that it has started is left then, running or not waited for.
"""
from __future__ import annotations

import os
import re
from collections import Counter
from dataclasses import dataclass
from enum import Enum
from pathlib import Path
from typing import Any, NamedTuple, Sequence

from tests.references.controller.engines import Planned

from .processes import TOP, is_alive, process_tree, run

CLAP = "\n\nFor more information, try '--help'.\n"  # how an error of clap ends


class Outcome(Enum):
    """What comes of a refusal."""

    REPORTED = "reported"
    HARMLESS = "without harm"
    WRONG = "wrong"


def hostile(plan: str, style: str = "<reply>") -> str:
    """Returns the command of an engine that misbehaves as this plan says."""
    return " ".join(Planned(1, 1, style, plan).command("/dev/null"))


@dataclass(frozen=True)
class Run:
    """A run of a program: its command, what it reads, and how it ends where nothing is refused."""

    name: str
    command: Sequence[str]
    status: int
    output: str = ""
    errors: str = ""
    text: str = ""


def usage_error(name: str, command: str, errors: str) -> Run:
    """Returns a run whose arguments have a mistake, of which this is reported."""
    return Run(name, command.split(), 2, errors=errors)


class Ending(NamedTuple):
    """How a run has ended, and whether a process that it has started was left."""

    status: int
    output: str
    errors: str
    is_left: bool = False


class Refuser(NamedTuple):
    """A library that is loaded into the programs and refuses requests, and a folder for files."""

    library: Path
    programs: Path
    folder: Path

    @property
    def counted(self) -> Path:
        """The file that gets the number of requests of a run."""
        return self.folder / "counted"

    def ending(self, refused: Run, number: int) -> Ending:
        """Returns how a run ends whose request of this number is refused, or none for 0."""
        program, *words = refused.command
        environment = {
            **os.environ,
            "PATH": os.pathsep.join([str(self.programs), os.environ["PATH"]]),
            "REFUSED": str(number),
            "COUNTED": str(self.counted),
            "LD_PRELOAD": str(self.library),
        }
        given, output, errors = (self.folder / it for it in ("input", "output", "errors"))
        given.write_text(refused.text)
        with open(given) as stdin, open(output, "wb") as stdout, open(errors, "wb") as stderr:
            streams: Any = {"stdin": stdin, "stdout": stdout, "stderr": stderr}
            command = [self.programs / program, *words]
            with process_tree(command, env=environment, cwd=TOP, **streams) as process:
                process.wait()
                is_left = is_alive(process.pid)
        return Ending(process.returncode, text_of(output), text_of(errors), is_left)

    def is_clap_another(self) -> bool:
        """Tells whether cargo may have built the programs, with another clap and its texts."""
        kinds = run([TOP / "packaging/built", "twogtp", "gtp_engine", "gtp_check"]).stdout.split()
        return kinds != ["proved"] * 3

    def check(self, refused: Run) -> None:
        """Fails unless each refusal is reported or without harm, and most are reported."""
        whole = self.ending(refused, 0)
        requests = int(self.counted.read_text())
        wanted = Ending(refused.status, refused.output, refused.errors)
        if refused.errors.startswith("error: ") and self.is_clap_another():
            assert re.search("^error: .*--help", whole.errors, re.DOTALL | re.MULTILINE)
            wanted = wanted._replace(errors=whole.errors)
        assert whole == wanted
        endings = [self.ending(refused, number) for number in range(1, requests + 1)]
        outcomes = [outcome(refused, wanted, ending) for ending in endings]
        assert [it for it, what in zip(endings, outcomes) if what is Outcome.WRONG] == []
        counts = Counter(outcomes)
        assert counts[Outcome.REPORTED] > counts[Outcome.HARMLESS]


def text_of(file: Path) -> str:
    """Returns all that is in a file."""
    return file.read_text(errors="backslashreplace")


def outcome(refused: Run, wanted: Ending, ending: Ending) -> Outcome:
    """Returns what has come of a refusal."""
    if ending == wanted:
        return Outcome.HARMLESS
    # Of the lines of a match some may be reported before, but nothing of a usage error.
    lines = wanted.errors if refused.status != 2 else ""
    before, report, after = ending.errors.rpartition(f"{refused.command[0]}: out of memory\n")
    is_beginning = lines.startswith(before) and before[-1:] in ("", "\n")
    is_reported = report and not after and is_beginning and ending.status == 3
    if is_reported and not ending.is_left and wanted.output.startswith(ending.output):
        return Outcome.REPORTED
    return Outcome.WRONG
