"""Errors of scripts: a command for bash that provokes each, and the text that the script writes."""
from __future__ import annotations

import os
import re
import shutil
from dataclasses import dataclass
from functools import lru_cache
from pathlib import Path
from typing import Dict, Iterator, List, Mapping, Tuple

import pytest

from .processes import TOP, run


@dataclass(frozen=True)
class ScriptError:
    """An error of a script, by a command that runs in a new folder.

    The programs and the scripts for tournaments are in PATH, and $TOP is the repository. The text
    comes after the script's name. In it {usage} is what --help prints, {here} the folder and {top}
    the repository. A text that begins with `..` ends the standard error, after one of the system.
    """

    script: str
    command: str
    status: int
    text: str

    def __str__(self) -> str:
        first_line = self.text.partition("\n")[0].removeprefix("..")
        return f"{self.script}: {first_line[:90]}"


def errors_of(rows: Mapping[str, List[Tuple[str, int, str]]]) -> Iterator[ScriptError]:
    """Yields the errors of a table: of each script the commands, statuses and texts."""
    for script, errors in rows.items():
        for command, status, text in errors:
            yield ScriptError(script, command, status, text)


@lru_cache(maxsize=None)
def usage_of(script: str) -> str:
    """Returns the usage text of a script."""
    usage: str = run([TOP / script, "--help"]).stdout
    return usage


def check_error(error: ScriptError, environment: Mapping[str, str], folder: Path) -> None:
    """Fails unless the command writes the error, and ends with its status."""
    if re.search(r"\bgit\b", error.command) and not shutil.which("git"):
        pytest.skip("there is no git")
    path = os.pathsep.join([str(TOP / "tournament"), environment["PATH"]])
    own: Dict[str, str] = {**environment, "PATH": path, "TOP": str(TOP), "LC_ALL": "C.UTF-8"}
    own["TWOGTP"] = shutil.which("twogtp", path=path) or "twogtp"
    done = run(["bash", "-c", error.command], cwd=folder, env=own)
    name = error.script if error.script.startswith("packaging/") else Path(error.script).name
    wanted = f"{name}: {error.text.removeprefix('..')}"
    for mark, text in (("{top}", str(TOP)), ("{here}", str(folder)), ("{twogtp}", own["TWOGTP"])):
        wanted = wanted.replace(mark, text)
    if "{usage}" in wanted:
        wanted = wanted.replace("{usage}", usage_of(error.script))
    end = done.stderr[-len(wanted) :] if error.text.startswith("..") else done.stderr
    assert (done.returncode, end) == (error.status, wanted)
