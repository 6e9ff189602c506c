"""The scripts for tournaments are of Python 3.9, and need its standard library alone."""
from __future__ import annotations

import ast
import shutil
from pathlib import Path
from typing import List

import pytest

from .runner import SCRIPTS, TWO, Runner

STANDARD = set(
    "__future__ array base64 bisect collections contextlib copy csv ctypes difflib enum errno fcntl"
    " functools gc gzip hashlib html http importlib io itertools json marshal math os random re"
    " select shlex shutil signal sys tempfile threading time types typing urllib zlib".split()
)
# what is in C of a module, which is imported alone where it is there
IN_C = {"_ctypes", "_signal"}
OWN = {"vintsaky_tournament"}


def is_python(place: Path) -> bool:
    """Tells whether a file is a script or a module in Python."""
    return place.suffix == ".py" or place.read_bytes().split(b"\n")[0].endswith(b"python3")


FILES = [file for file in sorted(SCRIPTS.rglob("*")) if file.is_file() and is_python(file)]


def imports_of(tree: ast.Module) -> List[str]:
    """Returns the top-level modules that a module imports, without its own package."""
    names: List[str] = []
    for node in ast.walk(tree):
        if isinstance(node, ast.Import):
            names += [alias.name for alias in node.names]
        elif isinstance(node, ast.ImportFrom) and node.module and not node.level:
            names.append(node.module)
    return [name.split(".")[0] for name in names]


def test_files_are_found() -> None:
    assert len(FILES) >= 10


@pytest.mark.parametrize("file", FILES, ids=lambda file: str(file.relative_to(SCRIPTS)))
def test_syntax_and_imports(file: Path) -> None:
    names = set(imports_of(ast.parse(file.read_bytes(), feature_version=(3, 9))))
    in_c = {name for name in IN_C if name[1:] in names}
    assert names - STANDARD - OWN - in_c == set()


@pytest.mark.parametrize("python", ["python3", "python3.9"])
def test_tournament_leaves_the_scripts_as_they_are(python: str, runner: Runner) -> None:
    if not shutil.which(python) or runner.run(python, "--version").status:
        pytest.skip(f"there is no {python} that runs")
    scripts = runner.folder / "scripts"
    shutil.copytree(SCRIPTS, scripts, ignore=shutil.ignore_patterns("__pycache__"))
    files = sorted(scripts.rglob("*"))
    words = [*TWO, "--seeds", "1", "--", "--size", "2"]
    assert runner.run(python, scripts / "tournament", "play", "all", *words)[::2] == (0, "")
    assert runner.run(python, scripts / "tally", "all").status == 0
    assert sorted(scripts.rglob("*")) == files
