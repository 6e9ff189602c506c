"""Tournaments that are drawn at random, by engines whose ratings are known."""
from __future__ import annotations

import random
from itertools import combinations
from typing import Any, Counter, Dict, List, Mapping, NamedTuple, Tuple

from .inside import module

ratings = module("stats.ratings")

MANY = 10**9  # pairs, beside which the pair that each engine has beforehand doesn't count
Observations = Dict[Tuple[str, str], Mapping[Any, float]]


def score(difference: float) -> float:
    """Returns the score that a difference in Elo has."""
    return 1 / (1 + 10 ** (-difference / 400))


def planted(elos: Mapping[str, float], black: float = 0.0, shifts: Tuple[float, ...] = (0,)) -> Any:
    """Returns pairs with exactly the expected points, so many that nothing else counts. Each shift
    is what an opening is worth for Black, and is as frequent as each other."""
    found: Observations = {}
    for one, other in combinations(elos, 2):
        difference, pairs = elos[one] - elos[other], Counter[Any]()
        for shift in shifts:
            first, second = score(difference + black + shift), score(black + shift - difference)
            games = (ratings.Observed(True, first), ratings.Observed(False, second))
            pairs[games] += MANY
        found[one, other] = pairs
    return found


class Kind(NamedTuple):
    """How tournaments are drawn."""

    elos: Mapping[str, float]
    pairs: int  # of each two engines
    draws: float = 0  # the share of drawn games where both engines are as strong
    shifts: Tuple[float, ...] = (0,)  # what openings are worth for Black
    most_repeats: int = 1  # how often a pair is played at most


EVEN = dict.fromkeys("abcde", 0.0)
NEAR = {"a": 60.0, "b": 30.0, "c": 0.0, "d": -20.0, "e": -70.0}
FAR = {"a": 450.0, "b": 200.0, "c": 0.0, "d": -200.0, "e": -450.0}
KINDS = {
    "even": Kind(EVEN, 40),
    "half draws": Kind(NEAR, 40, draws=0.5),
    "openings": Kind(NEAR, 60, shifts=(-300.0, -100.0, 0.0, 100.0, 300.0)),
    "900 Elo apart": Kind(FAR, 40),
    "repeated pairs": Kind(NEAR, 60, most_repeats=4),
}


def points(expected: float, draws: float, source: random.Random) -> float:
    """Returns the points of a game with this expectation."""
    share, luck = draws * min(expected, 1 - expected), source.random()
    return 1.0 if luck < expected - share else 0.5 if luck < expected + share else 0.0


def drawn(kind: Kind, source: random.Random) -> Observations:
    """Returns the pairs of a tournament."""
    found: Observations = {}
    for one, other in combinations(kind.elos, 2):
        difference, counts = kind.elos[one] - kind.elos[other], Counter[Any]()
        for _ in range(kind.pairs):
            shift, games = source.choice(kind.shifts), []
            for is_first, better in ((True, difference), (False, -difference)):
                expected = score(better + shift)
                games.append(ratings.Observed(is_first, points(expected, kind.draws, source)))
            counts[tuple(games) * source.randint(1, kind.most_repeats)] += 1
        found[one, other] = counts
    return found


def held(kind: Kind, count: int) -> List[float]:
    """Returns the share of so many tournaments in which the interval of each engine has its true
    rating: that of very many pairs."""
    names, source = list(kind.elos), random.Random(7)
    truth = ratings.Fit(names, planted(kind.elos, shifts=kind.shifts))
    counts = Counter[str]()
    for _ in range(count):
        fit = ratings.Fit(names, drawn(kind, source))
        for name in names:
            found = fit.rating(name)
            counts[name] += found.low <= truth.rating(name).elo <= found.high
    return [counts[name] / count for name in names]
