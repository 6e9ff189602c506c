"""Each shell script of the repository: bash can read it, and shellcheck finds nothing."""
from __future__ import annotations

import re
import shutil

import pytest

from tests.shared import pages
from tests.shared.processes import TOP, run

FEWEST = 10


def is_shell_script(path: str) -> bool:
    """Tells whether a file is a shell script, by its name or by its first line."""
    if path.endswith((".bash", ".sh")):
        return True
    with open(TOP / path, "rb") as file:
        return re.match(rb"#!.*[/ ](ba|da)?sh( |$)", file.readline().rstrip(b"\n")) is not None


SCRIPTS = [path for path in pages.files() if is_shell_script(path)]


def test_there_are_scripts() -> None:
    assert len(SCRIPTS) >= FEWEST


@pytest.mark.parametrize("script", SCRIPTS)
def test_bash_reads_the_script(script: str) -> None:
    done = run(["bash", "-n", script], cwd=TOP)
    assert (done.returncode, done.stdout + done.stderr) == (0, "")


@pytest.mark.skipif(
    not shutil.which("shellcheck"), reason="there is no shellcheck (apt-get install shellcheck)"
)
@pytest.mark.parametrize("script", SCRIPTS)
def test_shellcheck_finds_nothing(script: str) -> None:
    done = run(["shellcheck", "-x", script], cwd=TOP)
    assert (done.returncode, done.stdout + done.stderr) == (0, "")
