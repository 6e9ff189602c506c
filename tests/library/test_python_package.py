"""The package for Python: its own tests, by each Python that is here, and its types."""
from __future__ import annotations

import os
import re
import shutil
from pathlib import Path
from subprocess import CompletedProcess
from typing import Any, Dict

import pytest

from tests.shared.processes import TIMEOUT, run

from .python_package import PACKAGE, pythons, variables

LEAST_TESTS = 150
LONGEST = {"go_env": 120, "serve_match": 90}  # lines of an example, else 60
EXAMPLES = sorted((PACKAGE / "examples").glob("*.py"))


def files_of_package() -> Dict[Path, bytes]:
    """Returns the files of the package in the tree, but for what any import may leave there."""
    files = [it for it in PACKAGE.rglob("*") if it.is_file() and it.parent.name != "__pycache__"]
    return {path: path.read_bytes() for path in files}


@pytest.mark.parametrize("python", pythons())
def test_tests_of_the_package_pass(python: str, shared_library: Path) -> None:
    environment = {**os.environ, **variables(shared_library)}
    if run([python, "-c", ""], env=environment).returncode:
        pytest.skip(f"{python} does not run")
    before = files_of_package()
    command = [python, "-m", "unittest", "-q"]
    done = run(command, cwd=PACKAGE, env=environment, timeout=10 * TIMEOUT)
    assert done.returncode == 0, done.stdout + done.stderr
    found = re.search("^Ran ([0-9]+) tests", done.stderr, re.MULTILINE)
    assert found and int(found[1]) >= LEAST_TESTS, done.stderr
    assert files_of_package() == before, "the tests change the tree"


@pytest.mark.parametrize("example", EXAMPLES, ids=lambda path: path.stem)
def test_example_is_short(example: Path) -> None:
    assert len(example.read_text().splitlines()) <= LONGEST.get(example.stem, 60)


# ---- types


def mypy(folder: Path, *words: object) -> CompletedProcess[Any]:
    """Returns what mypy says of a program that uses the package."""
    if not shutil.which("mypy"):
        pytest.skip("there is no mypy")
    command = ["mypy", "--strict", "--cache-dir", os.devnull, "--no-incremental", *words]
    environment = {**os.environ, "MYPYPATH": str(PACKAGE)}
    return run(command, cwd=folder, env=environment, timeout=10 * TIMEOUT)


@pytest.mark.parametrize("path", ["vintsaky", "tests/typed.py"])
def test_mypy_finds_nothing(path: str, tmp_path: Path) -> None:
    # in the program no vertex of the library is a resignation
    done = mypy(tmp_path, PACKAGE / path)
    assert done.returncode == 0, done.stdout + done.stderr


# a line in a program that mypy has to refuse, and what it says of this line
MISTAKES = {
    "Game().play('b', RESIGN)": "Literal[NoPoint.RESIGN]",
    "Game().moves[0].vertex.column": 'has no attribute "column"',
    "Game().play('b', 5)": "Literal[5]",
    "Game.from_moves([('b', 5)])": "Tuple[str, Literal[5]]",
    "Steps().choose(None)": '"None"',
    "a: int = Game().turn.text": '"str"',
    "b: Point = Game().random_move('b', 1)": "Literal[NoPoint.PASS]",
}


def test_mypy_refuses_each_mistake(tmp_path: Path) -> None:
    lines = ["from vintsaky import RESIGN, Game, Point, Steps", *MISTAKES]
    (tmp_path / "mistakes.py").write_text("".join(f"{line}\n" for line in lines))
    errors = mypy(tmp_path, "mistakes.py").stdout
    for number, (line, text) in enumerate(MISTAKES.items(), 2):
        found = re.findall(f"^mistakes.py:{number}: error: (.*)", errors, re.MULTILINE)
        assert any(text in error for error in found), f"{line}: {errors}"
