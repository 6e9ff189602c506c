"""The games by opening, colour, length or time a move, as a short table."""
from __future__ import annotations

from typing import Iterator

from ..stats.breakdown import PARTS
from ..stats.summary import Counts


def lines(counts: Counts, name: str) -> Iterator[str]:
    """Yields a line for each part of the games."""
    parts = PARTS[name](counts)
    width = max([len(name), *(len(part.name) for part in parts)])
    head = "score" if name in ("colour", "time") else "Black's score"
    seconds = "   mean move  longest" if name == "time" else ""
    yield f"{name:{width}}   games  {head:>13}  95 % interval{seconds}"
    for part in parts:
        interval = f"{100 * part.low:.1f} to {100 * part.high:.1f}"
        if part.mean is not None:
            interval = f"{interval:13}  {part.mean:10.3f}  {part.longest:7.3f}"
        yield f"{part.name:{width}}  {part.games:6}  {100 * part.score:13.1f}  {interval}"
