"""What fails in ./test fails the whole run: copies of it are run, in which a build does nothing.

What they have to print was worked out by hand from ./test.
"""
from __future__ import annotations

import os
import re
from dataclasses import dataclass, field
from pathlib import Path
from typing import Dict, NamedTuple, Optional, Sequence

import pytest

from tests.shared.processes import TOP, run

PASSING = "def test_one(): pass\n"
FAILING = PASSING + "def test_two(): assert 1 == 2\n"
FAILED = "FAILED tests/test_one.py::test_two - assert 1 == 2"
NOTHING = "#!/bin/sh\n"


def saying(text: str, status: int = 0) -> str:
    """Returns a script that prints this text, and ends with this status."""
    return f"#!/bin/bash\necho '{text}'\nexit {status}\n"


class Outcome(NamedTuple):
    """How a run has ended: its status, its lines that begin with FAILED, and its last line."""

    status: int
    failed: Sequence[str]
    last: str


def outcome_of(folder: Path, files: Dict[str, str], *words: str) -> Outcome:
    """Returns how a copy of ./test ends, which has these files."""
    script = re.sub(r"(?m)^must_fail=\d+", "must_fail=1", (TOP / "test").read_text())
    standard = {
        "test": script,
        "build": NOTHING,
        "packaging/built": NOTHING,
        "nproc": saying("1"),
        "rt": saying("1 passed, 0 failed"),
        "crates/low/must-fail/wrong.edit": "",
        "tests/test_one.py": PASSING,
    }
    for name, text in {**standard, **files}.items():
        (folder / name).parent.mkdir(parents=True, exist_ok=True)
        (folder / name).write_text(text)
        (folder / name).chmod(0o755)
    # this pytest has settings in the environment that are not for another one
    environment = {name: it for name, it in os.environ.items() if not name.startswith("PYTEST")}
    environment["PATH"] = os.pathsep.join([str(folder), environment["PATH"]])
    done = run([folder / "test", *words], env=environment, cwd=folder)
    lines = done.stdout.splitlines()
    return Outcome(done.returncode, [it for it in lines if it.startswith("FAILED")], lines[-1])


@dataclass(frozen=True)
class Run:
    """A run of ./test programs that has these files: what fails in it, and its last line."""

    name: str
    files: Dict[str, str]
    last: str
    failed: Sequence[str] = field(default=())


ENDED = "with 0 passed and none failed"
RUNS = [
    Run("all pass", {}, "1 passed, 0 failed"),
    Run("a test fails", {"tests/test_one.py": FAILING}, "1 passed, 1 failed", [FAILED]),
    Run(
        "a test fails in one of two processes",
        {"nproc": saying("2"), "tests/test_one.py": FAILING},
        "1 passed, 1 failed",
        [FAILED],
    ),
    Run(
        "a fixture fails",
        {
            "tests/test_one.py": "import pytest\n@pytest.fixture\ndef it(): raise KeyError\n"
            "def test_one(it): pass\ndef test_two(): pass\n"
        },
        "1 passed, 1 failed",
    ),
    Run(
        "a test is skipped",
        {"tests/test_two.py": "import pytest\ndef test_two(): pytest.skip('so')\n"},
        "1 passed, 0 failed",
    ),
    Run(
        "a file of tests can't be read",
        {"tests/test_two.py": "import nothing_of_this_name\n"},
        "1 passed, 1 failed",
    ),
    Run(
        "there is no test",
        {"tests/test_one.py": ""},
        "0 passed, 1 failed",
        [f"FAILED: 'by_pytest' ended with status 5, {ENDED}"],
    ),
    Run(
        "conftest.py is broken",
        {"tests/conftest.py": "import nothing_of_this_name\n"},
        "0 passed, 1 failed",
        [f"FAILED: 'by_pytest' ended with status 4, {ENDED}"],
    ),
    Run(
        "pytest is killed",
        {"tests/conftest.py": "import os\nos.kill(os.getpid(), 9)\n"},
        "0 passed, 1 failed",
        [f"FAILED: 'by_pytest' ended with status 137, {ENDED}"],
    ),
    Run(
        "pytest fails after its tests",
        {"tests/conftest.py": "def pytest_sessionfinish(session): session.exitstatus = 3\n"},
        "1 passed, 1 failed",
        ["FAILED: 'by_pytest' ended with status 3, with 1 passed and none failed"],
    ),
]


@pytest.mark.parametrize("row", RUNS, ids=lambda row: row.name)
def test_failure_is_counted(row: Run, tmp_path: Path) -> None:
    status, failed, last = outcome_of(tmp_path, row.files, "programs")
    assert (status, last) == (0 if row.last.endswith(", 0 failed") else 1, row.last)
    assert set(row.failed) <= set(failed)


REFUSED = "rt: must-fail low/wrong.edit: refused, as it must be"


@pytest.mark.parametrize(
    "said, reason",
    [
        (f"{REFUSED}: src/lib.rt:1:1: it is not proved", None),
        (f"{REFUSED} (only by a limit of the prover): src/lib.rt:1:1: too long", None),
        (
            "rt: must-fail low/wrong.edit: BAD EDIT: an old: text is in src/lib.rt 0 times",
            "it does not apply",
        ),
        ("rt: must-fail low/wrong.edit: NOT TRIED: run this again", "it was not tried"),
        (
            f"{REFUSED} (only because a proof file names what the edit took away): src/",
            "a name is gone",
        ),
        ("rt: must-fail low/other.edit: refused, as it must be", "another was refused"),
        ("rt: low proved", "nothing is said of it"),
        (
            f"{REFUSED}: src/lib.rt:1:1: a\n" + REFUSED.replace("wrong", "other") + ": b",
            "one more was refused",
        ),
    ],
)
def test_edit_has_to_be_refused(said: str, reason: Optional[str], tmp_path: Path) -> None:
    status, _, last = outcome_of(tmp_path, {"rt": saying(f"{said}\n1 passed, 0 failed")})
    # rt ci, the edits, the library and pytest
    assert (status, last) == ((1, "3 passed, 1 failed") if reason else (0, "4 passed, 0 failed"))


def test_status_of_the_kit_is_noticed(tmp_path: Path) -> None:
    rt = saying(f"{REFUSED}: src/lib.rt:1:1: it is not proved\n1 passed, 0 failed", status=2)
    status, failed, last = outcome_of(tmp_path, {"rt": rt})
    assert (status, last) == (1, "4 passed, 1 failed")
    assert failed == ["FAILED: 'gate' ended with status 2, with 2 passed and none failed"]
