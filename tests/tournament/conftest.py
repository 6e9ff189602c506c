"""What the tests of tournaments share."""
from __future__ import annotations

from pathlib import Path
from typing import Dict, Iterator

import pytest

from .runner import SMALL, TWO, Played, Runner


@pytest.fixture
def runner(twogtp: Path, gtp_engine: Path, programs: Path, tmp_path: Path) -> Iterator[Runner]:
    """Returns what runs the scripts in an empty directory."""
    with Runner(tmp_path, programs) as made:
        yield made


@pytest.fixture(scope="module")
def shared_runner(
    twogtp: Path, gtp_engine: Path, programs: Path, tmp_path_factory: pytest.TempPathFactory
) -> Iterator[Runner]:
    """Returns the same for all tests of a module, which leave its directory as they find it."""
    with Runner(tmp_path_factory.mktemp("shared"), programs) as made:
        yield made


@pytest.fixture(scope="session")
def small(
    twogtp: Path, gtp_engine: Path, programs: Path, tmp_path_factory: pytest.TempPathFactory
) -> Iterator[Played]:
    """Returns a small tournament that nobody disturbs, in `all`: TWO, 4 seeds, SMALL."""
    with Runner(tmp_path_factory.mktemp("small"), programs) as runner:
        yield Played(runner, runner.tournament("play", "all", *TWO, "--seeds", "4", *SMALL))


@pytest.fixture(scope="session")
def small_results(small: Played) -> Dict[str, str]:
    """Returns the results of the small tournament."""
    assert small.done.status == 0
    return small.runner.games()
