"""The games of a tournament by opening, colour, length or time a move: the score of each part, with
its 95 % interval. Here a game is one observation; only pairs say which engine is stronger."""
from __future__ import annotations

from collections import Counter
from typing import Mapping, NamedTuple

from . import scores
from .pairs import COUNTED, POINTS, Score
from .scores import Cluster
from .summary import LENGTH, Counts
from .times import name_of


class Part(NamedTuple):
    """Some games: what they have in common, how many count, and their score with its interval.
    Where they are those of so much time a move, also the seconds of a move."""

    name: str
    games: int
    score: float
    low: float
    high: float
    mean: float | None = None
    longest: float | None = None


def part(name: str, counts: Mapping[int, int]) -> list[Part]:
    """Returns the part of games with these scores; none where no game counts."""
    games = {score: counts[score] for score in COUNTED if counts.get(score)}
    if not games:
        return []
    count = sum(games.values())
    points = sum(POINTS[score] * number for score, number in games.items())
    clusters = {Cluster(1, round(4 * POINTS[score])): number for score, number in games.items()}
    return [Part(name, count, points / count, *scores.interval(clusters))]


def by_colour(counts: Counts) -> list[Part]:
    """Returns the score of each engine with each colour."""
    black: dict[str, Counter[int]] = {name: Counter() for name in counts.plan.engines}
    white: dict[str, Counter[int]] = {name: Counter() for name in counts.plan.engines}
    for number, (one, other) in enumerate(counts.games.sides):
        found = Counter(counts.pairs.scores_of(number))
        black[one].update(found)
        lost, half, won = (found[score] for score in COUNTED)
        white[other].update({Score.LOST: won, Score.HALF: half, Score.WON: lost})
    return [
        each
        for name in counts.plan.engines
        for colour, found in (("black", black[name]), ("white", white[name]))
        for each in part(f"{name} {colour}", found)
    ]


def by_opening(counts: Counts) -> list[Part]:
    """Returns Black's score after each opening."""
    openings, size = counts.plan.openings, len(counts.games.sides)
    found: list[Counter[int]] = [Counter() for _ in openings]
    for seed in range(counts.games.seeds if openings else 0):
        found[seed % len(openings)].update(counts.pairs.scores[seed * size : (seed + 1) * size])
    return [
        each
        for number, (moves, own) in enumerate(zip(openings, found), 1)
        for each in part(f"{number} {moves}", own)
    ]


def by_length(counts: Counts) -> list[Part]:
    """Returns Black's score in games of so many moves."""
    return [
        each
        for at, own in sorted(counts.lengths.items())
        for each in part(f"{at * LENGTH} to {at * LENGTH + LENGTH - 1} moves", own)
    ]


def by_time(counts: Counts) -> list[Part]:
    """Returns the score of each engine in games in which its moves took so long on average."""
    return [
        each._replace(mean=step.mean, longest=step.longest)
        for name, steps in (counts.times.steps if counts.times else {}).items()
        for at, step in sorted(steps.items())
        for each in part(f"{name} {name_of(at)}", step.scores)
    ]


PARTS = {"colour": by_colour, "opening": by_opening, "length": by_length, "time": by_time}
