"""Fixtures of the tests of the library."""
from __future__ import annotations

from pathlib import Path
from typing import Any

import pytest

from tests.shared.processes import TOP, run

from .games import LIMIT, MATCHES, Match, Play, random_match


def pytest_generate_tests(metafunc: pytest.Metafunc) -> None:
    if "match_number" in metafunc.fixturenames:
        count = metafunc.config.getoption("--count") or MATCHES
        metafunc.parametrize("match_number", range(count))


@pytest.fixture
def match(match_number: int, request: pytest.FixtureRequest, engine: str) -> Match:
    """Returns a random match. The module's own engine is the command of the example that plays."""
    return random_match(request.config.getoption("--seed"), match_number, engine)


@pytest.fixture
def play(twogtp: Path, gtp_engine: Path, environment: dict[str, str]) -> Play:
    """Returns a function that plays a match by twogtp."""

    def play_match(black: str, white: str, *options: str) -> Any:
        command = [twogtp, *options, "--black", black, "--white", white]
        return run(command, cwd=TOP, env=environment, timeout=LIMIT)

    return play_match


@pytest.fixture(scope="session")
def rust_workspace(tmp_path_factory: pytest.TempPathFactory) -> Path:
    """Returns a new Cargo workspace, which has the crate in Rust."""
    folder = tmp_path_factory.mktemp("rust") / "workspace"
    done = run([TOP / "cargo/strip", folder], timeout=LIMIT)
    assert (done.returncode, done.stderr) == (0, "")
    return folder
