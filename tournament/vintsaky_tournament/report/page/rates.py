"""How fast a tournament is, by the times of its files."""
from __future__ import annotations

import os
from typing import NamedTuple, Sequence

from .games import Gathered

GAP = 900.0  # seconds without a result, which are between two runs
RECENT = 1200.0  # seconds of which the rate is
PAUSE = 30.0  # seconds without a game in which a run may still go on


class Rate(NamedTuple):
    """How many games a minute there are lately, and how many minutes are left at that."""

    per_minute: float
    minutes_left: float


def ends_of(gathered: Gathered) -> list[float]:
    """Returns when results came, in order."""
    return sorted(game.ended for game in gathered.ended if game.ended)


def is_running(gathered: Gathered) -> bool:
    """Returns whether games are being played. A run that was killed leaves some that began."""
    games = (*gathered.ended, *gathered.playing)
    quiet = gathered.now - max((game.ended for game in games), default=0.0)
    if quiet > max(GAP, gathered.plan.limit or 0):
        return False
    return quiet <= PAUSE or has_begun(gathered)


def has_begun(gathered: Gathered) -> bool:
    """Returns whether there is a game that somebody began and didn't end."""
    try:
        names = os.listdir(f"{gathered.folder}/running")
    except OSError:
        return False
    return any(gathered.names.number(name) is not None for name in names)


def rate_of(gathered: Gathered, ends: Sequence[float]) -> Rate | None:
    """Returns how fast a run is that goes on; None where it has no results lately."""
    if not ends:
        return None
    began, longest = ends[0], max(GAP, gathered.plan.limit or 0)
    for before, after in zip(ends, ends[1:]):
        began = after if after - before > longest else began
    since = max(began, gathered.now - RECENT)
    lately, minutes = sum(end > since for end in ends), (gathered.now - since) / 60
    if not lately or minutes <= 0:
        return None
    return Rate(lately / minutes, gathered.counts.missing * minutes / lately)
