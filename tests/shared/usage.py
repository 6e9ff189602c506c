"""What the programs have in common: the usage errors and the help of clap, and an unread output."""
from __future__ import annotations

import os
from pathlib import Path
from subprocess import CompletedProcess
from typing import Sequence, Union

from .processes import run


def check_usage_error(done: CompletedProcess[str], *parts: str) -> None:
    """Fails unless a program has ended with a usage error that has all of these parts."""
    assert (done.returncode, done.stdout) == (2, "")
    assert done.stderr.startswith("error: ")
    assert [part for part in parts if part not in done.stderr] == []


def check_help(done: CompletedProcess[str], *parts: str) -> None:
    """Fails unless a program prints each of these parts, however it is broken into lines."""
    assert (done.returncode, done.stderr) == (0, "")
    text = " ".join(done.stdout.split())
    assert [part for part in parts if part not in text] == []


def check_unread(command: Sequence[Union[str, Path]]) -> None:
    """Fails unless a command whose output nobody reads ends with status 3, and says so."""
    reader, writer = os.pipe()
    os.close(reader)
    with open(writer, "w") as output:
        done = run(command, stdout=output)
    name = Path(command[0]).name
    assert (done.returncode, done.stderr) == (3, f"{name}: write fault\n")
