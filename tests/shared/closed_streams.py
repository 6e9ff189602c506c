"""Runs a program with its standard input, output and errors closed, in each of the eight ways.

What is meant for a closed stream reaches nothing else: no engine is sent a byte that is no command,
and what an engine writes to its standard error reaches no pipe of a match. A closed output is a
write fault where something is written to it, and a closed input a read fault where it is read. Else
the status is what it is with all streams open. Where there is no null device either, a program with
a closed stream ends with status 3 before it starts anything.
"""
from __future__ import annotations

import itertools
import re
import shutil
import sys
from dataclasses import dataclass
from pathlib import Path
from typing import FrozenSet, List, NamedTuple, Optional, Sequence

import pytest

from .processes import TOP, Command, run

INPUT, OUTPUT, ERRORS = range(3)
NAMES = ["input", "output", "errors"]
Closed = FrozenSet[int]
ALL_OPEN: Closed = frozenset()
WAYS = [
    frozenset(closed) for count in range(4) for closed in itertools.combinations(range(3), count)
]
NO_NULL_DEVICE = "a standard stream is closed, and /dev/null can't be opened"


def name_of(closed: Closed) -> str:
    """Returns the closed streams in words."""
    return (
        ", ".join(NAMES[number] for number in sorted(closed)) + " closed" if closed else "all open"
    )


each_way = pytest.mark.parametrize("closed", WAYS, ids=name_of)
each_text = pytest.mark.parametrize(
    "option, status", [("--help", 0), ("--version", 0), ("--size=x", 2)]
)


class Result(NamedTuple):
    """What comes of a program: its status, and what it has written."""

    status: int
    output: str
    errors: str


def run_closed(command: Command, closed: Closed, folder: Path, text: str = "") -> Result:
    """Runs a command that reads this text with these streams closed. The others are files here."""
    paths = [folder / name for name in NAMES]
    paths[INPUT].write_text(text)
    closing = "".join(f" {number}{'<' if number == INPUT else '>'}&-" for number in sorted(closed))
    with open(paths[INPUT]) as stdin, open(paths[OUTPUT], "w") as stdout, open(
        paths[ERRORS], "w"
    ) as stderr:
        shell = ["sh", "-c", f'exec "$@"{closing}', "sh", *command]
        status = run(shell, stdin=stdin, stdout=stdout, stderr=stderr).returncode
    return Result(status, paths[OUTPUT].read_text(), paths[ERRORS].read_text())


def with_closed(result: Result, closed: Closed, program: str) -> Result:
    """Returns what has to come of a program with these streams closed, by what does with none."""
    status, output, errors = result
    if OUTPUT in closed and output:
        status, errors = 3, f"{errors}{program}: write fault\n"
    return Result(status, "" if OUTPUT in closed else output, "" if ERRORS in closed else errors)


def check_text(program: Path, option: str, status: int, beginning: str, folder: Path) -> None:
    """Fails unless a text that is asked for, or a usage error, goes where it should."""
    result = run_closed([program, option], ALL_OPEN, folder)
    if status == 0:
        assert result.output.startswith((beginning, f"{program.name} "))
    else:
        assert result.errors.startswith("error: ")
    assert (result.status, status == 0) == (status, result.output != "")
    for closed in WAYS:
        wanted = with_closed(result, closed, program.name)
        assert run_closed([program, option], closed, folder) == wanted, name_of(closed)


# ---- an engine that notes its streams


@dataclass(frozen=True)
class NotingEngine:
    """An engine of tests/shared/noting_engine.py, by the name of its notes."""

    side: str
    folder: Path
    answering: Optional[Path] = None

    def command(self) -> str:
        """Returns the command that starts it."""
        words = [sys.executable, "-S", "-B", TOP / "tests/shared/noting_engine.py"]
        words += [self.side, self.folder, *([self.answering] if self.answering else [])]
        return " ".join(map(str, words))

    def read(self) -> str:
        """Returns what it has read."""
        return (self.folder / f"{self.side}.read").read_text()

    def check_streams(self, closed: Closed) -> None:
        """Fails unless the engine has its parent's standard error, and the parent its streams."""
        modes = [("to read", "to write"), ("to write", "to read"), ("to write", "to read")]
        parents = [
            f"/dev/null {turned}" if number in closed else f"{self.folder / NAMES[number]} {mode}"
            for number, (mode, turned) in enumerate(modes)
        ]
        spoken = "Bad file descriptor" if ERRORS in closed else "written"
        streams = (self.folder / f"{self.side}.streams").read_text().splitlines()
        assert streams == [parents[ERRORS], spoken, *parents]


# ---- without a null device


def make_root(root: Path, programs: Sequence[Path]) -> None:
    """Makes a root folder that has these programs with their libraries, and nothing else."""
    (root / "bin").mkdir(parents=True)
    for program in programs:
        shutil.copy(program, root / "bin")
        for library in re.findall(r"(/\S+) \(0x", run(["ldd", program]).stdout):
            (root / library[1:]).parent.mkdir(parents=True, exist_ok=True)
            shutil.copy(library, root / library[1:])


def enter_root(root: Path) -> List[str]:
    """Returns the words that run a command with this root, or skips the test where none may."""
    for words in (["chroot", str(root)], ["unshare", "--map-root-user", f"--root={root}"]):
        # 127 says that the root has no such command; who may not enter it has another status
        if shutil.which(words[0]) and run([*words, "bin/nothing"]).returncode == 127:
            return words
    pytest.skip("neither chroot nor unshare may enter a root here")


def check_without_null_device(
    programs: Sequence[Path],
    command: Sequence[str],
    text: str,
    result: Result,
    closed: Closed,
    folder: Path,
) -> None:
    """Fails unless a program has this result with all streams open, and else ends at once."""
    make_root(folder / "root", programs)
    if closed:
        name = Path(command[0]).name
        result = Result(3, "", "" if ERRORS in closed else f"{name}: {NO_NULL_DEVICE}\n")
    assert run_closed([*enter_root(folder / "root"), *command], closed, folder, text) == result
