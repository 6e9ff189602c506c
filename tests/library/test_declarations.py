"""What declares the library in C, Python and Rust is what library/declare makes of its sources."""
from __future__ import annotations

from pathlib import Path

import pytest

from library.declaring import checks, files
from tests.shared.processes import TOP, run

FILES = files.read(TOP)
DIFFERENCES = checks.differences(FILES)


@pytest.mark.parametrize("what", DIFFERENCES)
def test_declaration_agrees_with_the_sources(what: str) -> None:
    assert list(DIFFERENCES[what]) == []


def test_wrong_files_are_written_again_and_others_are_left(tmp_path: Path) -> None:
    header, python = "library/vintsaky.h", "library/python/vintsaky/_declared.py"
    for path, text in FILES.items():
        (tmp_path / path).parent.mkdir(parents=True, exist_ok=True)
        (tmp_path / path).write_text("wrong\n" if path == header else text, encoding="utf-8")
    (tmp_path / python).unlink()
    assert set(files.write(tmp_path)) == {header, python}
    assert files.read(tmp_path) == FILES
    assert files.write(tmp_path) == []


def test_declare_says_that_nothing_differs() -> None:
    done = run([TOP / "library/declare", "--check"])
    assert (done.returncode, done.stdout, done.stderr) == (0, "", "")
