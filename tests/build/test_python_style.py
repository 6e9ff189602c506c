"""All Python of the repository: black lays it out, and flake8 and mypy find nothing.

Debian's tools decide, with the settings of pyproject.toml and .flake8. In CI they have to be there.
"""
from __future__ import annotations

import os
import re
import shutil
from pathlib import Path

import pytest

from tests.shared import pages
from tests.shared.processes import TOP, run


def is_python(path: str) -> bool:
    """Tells whether a file is Python, by its name or by its first line."""
    if path.endswith(".py"):
        return True
    with open(TOP / path, "rb") as file:
        return re.match(rb"#!.*python3", file.readline()) is not None


def repository_files() -> list[str]:
    """Returns the files that git knows, or all where this is no clone."""
    known = run(["git", "ls-files"], cwd=TOP).stdout.splitlines() if shutil.which("git") else []
    return [path for path in known or pages.files() if (TOP / path).is_file()]


FILES = [path for path in repository_files() if is_python(path)]
MODULES = [path for path in FILES if path.endswith(".py")]
SCRIPTS = [path for path in FILES if path not in MODULES]
# What imports each other is one run of mypy. The examples are tested with the package, and its
# tests give it what its types refuse.
PACKAGES = ["bench", "cargo", "library/declaring", "library/python/vintsaky", "tests", "tournament"]
OTHERS = ["library/python/examples", "library/python/tests"]
HANGS = 3600  # seconds: a slow machine reads all files for minutes


def command_of(tool: str, version: str = "") -> str:
    """Returns the path of a tool of Debian's, or skips the test where it isn't there."""
    command, why = f"/usr/bin/{tool}", f"there is no /usr/bin/{tool} (apt-get install {tool})"
    if os.access(command, os.X_OK):
        said = run([command, "--version"]).stdout.strip()
        if said.startswith(version):
            return command
        why = f"this is not {version}: {said}"
    if os.environ.get("CI") == "true":
        pytest.fail(why, pytrace=False)
    pytest.skip(why)


def test_all_modules_are_in_packages() -> None:
    assert len(MODULES) > 100 and len(SCRIPTS) > 10
    folders = tuple(f"{package}/" for package in PACKAGES + OTHERS)
    assert [path for path in MODULES if not path.startswith(folders)] == []


def test_black_would_change_nothing() -> None:
    # later versions lay some things out in another way
    black = command_of("black", "black, 23.")
    command = [black, "--check", "--quiet", "--diff", *FILES]
    done = run(command, cwd=TOP, timeout=HANGS)
    assert (done.returncode, done.stdout + done.stderr) == (0, "")


def test_flake8_finds_nothing() -> None:
    done = run([command_of("flake8"), *FILES], cwd=TOP, timeout=HANGS)
    assert (done.returncode, done.stdout + done.stderr) == (0, "")


@pytest.fixture(scope="module")
def cache(tmp_path_factory: pytest.TempPathFactory) -> Path:
    """Returns the folder in which mypy keeps what it knows of modules."""
    return tmp_path_factory.mktemp("mypy")


@pytest.mark.xdist_group("mypy")
@pytest.mark.parametrize("path", [*PACKAGES, *SCRIPTS])
def test_mypy_finds_nothing(path: str, cache: Path) -> None:
    files = [path] if path in SCRIPTS else [it for it in MODULES if it.startswith(f"{path}/")]
    environment = {**os.environ, "MYPYPATH": str((TOP / path).parent)}
    command = [command_of("mypy"), "--cache-dir", cache, *files]
    done = run(command, cwd=TOP, env=environment, timeout=HANGS)
    assert done.returncode == 0, done.stdout + done.stderr
