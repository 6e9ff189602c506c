"""What the tests by hand share: slow engines, and the games that they should play."""
from __future__ import annotations

from collections.abc import Iterator
from pathlib import Path

import pytest

from tests.tournament.runner import RANDOM, SMALL, Runner, engines

PLAN = [*engines(one="./slow 1%s", two="./slow 2%s"), "--seeds", "8", "--limit", "30", *SMALL]
FAST = f'exec {RANDOM} "$@"'
SLOW = f"sleep 0.5\n{FAST}"


@pytest.fixture
def runner(twogtp: Path, gtp_engine: Path, programs: Path, tmp_path: Path) -> Iterator[Runner]:
    """Returns what runs the scripts in a directory with slow engines."""
    with Runner(tmp_path, programs) as made:
        made.script("slow", SLOW)
        yield made


@pytest.fixture(scope="session")
def undisturbed(
    twogtp: Path, gtp_engine: Path, programs: Path, tmp_path_factory: pytest.TempPathFactory
) -> dict[str, str]:
    """Returns the results of the same games, played by one process."""
    with Runner(tmp_path_factory.mktemp("undisturbed"), programs) as runner:
        runner.script("slow", FAST)
        assert runner.tournament("play", "far", *PLAN).status == 0
        return runner.games("far")
