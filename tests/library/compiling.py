"""Compiles programs in C for the tests of the library."""
from __future__ import annotations

import os
import shutil
from functools import lru_cache
from pathlib import Path
from subprocess import CompletedProcess
from typing import Any, List, Optional, Sequence

import pytest

from tests.shared.processes import TIMEOUT, TOP, run

WARNINGS = ["-Wall", "-Wextra", "-pedantic"]
HEADER_FOLDER = f"-I{TOP}/library"
EACH_CALL = TOP / "tests/shared/each_call.c"
Words = Sequence[object]


def compile_c(words: Words, folder: Path) -> CompletedProcess[str]:
    """Runs a compiler that leaves its own files in this folder where it is killed."""
    environment = {**os.environ, "TMPDIR": str(folder)}
    return run(words, timeout=10 * TIMEOUT, env=environment, cwd=TOP)


def said_by(command: Words, **options: Any) -> str:
    """Returns what a command writes, and its status where that isn't 0."""
    done = run(command, **options)
    status = f"status {done.returncode}" if done.returncode else ""
    text: str = done.stdout + done.stderr
    return text + status


def check_compiles(words: Words, folder: Path) -> None:
    """Fails unless a compiler has nothing to say."""
    done = compile_c(words, folder)
    assert (done.returncode, done.stdout + done.stderr) == (0, "")


@lru_cache(maxsize=None)
def is_proved() -> bool:
    """Tells whether the library is known to be proved. Else cargo may have built it."""
    done = run([TOP / "packaging/built", "libvintsaky.a"], cwd=TOP)
    return bool(done.stdout == "proved\n")


def size_flags() -> List[str]:
    """Returns what each_call.c is told of the sizes of objects: by cargo they may be smaller."""
    return [] if is_proved() else ["-DAT_MOST"]


def need_tools(*names: str) -> None:
    """Skips the test where one of these isn't there."""
    missing: Optional[str] = next((name for name in names if not shutil.which(name)), None)
    if missing:
        pytest.skip(f"there is no {missing}")
