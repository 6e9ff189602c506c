"""What the tests of twogtp share."""
from __future__ import annotations

from pathlib import Path

import pytest

from .playing import Player


@pytest.fixture
def player(twogtp: Path, gtp_engine: Path, environment: dict[str, str], tmp_path: Path) -> Player:
    """Returns what plays matches by the built programs."""
    return Player(environment, tmp_path)
