"""The calls of the library in C, under tools that look at memory and threads, and their stack."""
from __future__ import annotations

import re
from pathlib import Path

import pytest

from tests.shared.processes import run

from . import each_call
from .compiling import size_flags

pytestmark = pytest.mark.cc


@pytest.mark.parametrize("way", each_call.WAYS, ids=lambda way: way.name)
@pytest.mark.parametrize("library", ["archive", "shared_library"])
def test_each_call(
    library: str, way: each_call.Way, request: pytest.FixtureRequest, tmp_path: Path
) -> None:
    file: Path = request.getfixturevalue(library)
    if reason := each_call.missing(way, tmp_path):
        pytest.skip(reason)
    each_call.check_each_call(way, file, tmp_path, *size_flags())


def test_calls_take_little_stack(archive: Path, tmp_path: Path) -> None:
    # 160 kB, and those of a match 320 kB
    program = tmp_path / "stack"
    each_call.compile_with(archive, each_call.STACK, program, *size_flags())
    done = run([program, str(160 * 1024), str(320 * 1024)])
    assert (done.returncode, done.stderr) == (0, "")
    lines = done.stdout.splitlines()
    assert [line for line in lines if not re.fullmatch("[a-z]+ [0-9]+", line)] == []
    assert len(lines) == 5
