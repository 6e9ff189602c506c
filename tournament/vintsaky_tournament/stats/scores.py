"""What pairs of games say. A pair is two games of the same two engines with the same seed, one with
each colour.

A game is 1, 1/2 or 0 for an engine, so a pair has one of five outcomes: 0, 1/2, 1, 3/2 or 2. Here
pairs are five counts, how many have each outcome. Their score is the mean, as a share of the 2 that
can be won: from 0 to 1.
"""
from __future__ import annotations

import math
from typing import Mapping, NamedTuple, Sequence, Tuple

Z = 1.959963984540054  # of a 95 % interval
FEWEST = 16  # pairs from which on a test says anything
FEWEST_OTHERS = 10  # pairs unlike the most frequent ones, before which their variance isn't known
ADDED = 0.001  # to each count in a test, so that there is a variance
HALVINGS = 60  # which find a number to the last digits


class Cluster(NamedTuple):
    """Pairs that repeat each other: how many, and how many half points they have."""

    pairs: int
    half_points: int


class Observed(NamedTuple):
    """A game of two engines: whether the first of them was Black, and Black's points, 0 to 1."""

    is_first: bool
    points: float


Together = Tuple[Observed, ...]  # games that are one observation


class Bounds(NamedTuple):
    """The log likelihood ratios up to which a test accepts the lower difference, and from which on
    the higher one."""

    low: float
    high: float


FIVE_PERCENT = Bounds(-math.log(19), math.log(19))  # where both errors are to be 5 %: 0.95 / 0.05


class Estimate(NamedTuple):
    """A number in Elo, and its 95 % interval."""

    elo: float
    low: float
    high: float


def moments(counts: Sequence[float]) -> tuple[float, float]:
    """Returns the mean and the variance of pairs, as shares of what can be won."""
    total = sum(counts)
    mean = sum(count * at for at, count in enumerate(counts)) / (4 * total)
    return mean, sum(count * (at / 4 - mean) ** 2 for at, count in enumerate(counts)) / total


class Normal(NamedTuple):
    """A score as a normal distribution: its mean, and its standard error."""

    mean: float
    error: float


def normal(clusters: Mapping[Cluster, int]) -> Normal:
    """Returns how sure a score is.

    It is given the number of clusters of each kind: pairs that repeat an earlier one are a cluster
    with it, and others are alone. One cluster is added, as large as a pair's is on average, half of
    it won twice and half of it lost twice. So few clusters, or those that are all alike, don't look
    certain.
    """
    pairs = sum(count * size for (size, _), count in clusters.items())
    # how many pairs the added cluster has
    added = sum(count * size**2 for (size, _), count in clusters.items()) / pairs
    won = sum(count * won / 4 for (_, won), count in clusters.items())
    mean = (won + added / 2) / (pairs + added)
    squares = sum(count * (won / 4 - size * mean) ** 2 for (size, won), count in clusters.items())
    squares += added**2 * (mean**2 + (1 - mean) ** 2) / 2
    return Normal(mean, math.sqrt(squares / (pairs + added) / pairs))


def interval(clusters: Mapping[Cluster, int]) -> tuple[float, float]:
    """Returns the 95 % interval of the score: 1.96 standard errors to each side."""
    mean, error = normal(clusters)
    return max(0.0, mean - Z * error), min(1.0, mean + Z * error)


def better(clusters: Mapping[Cluster, int]) -> float:
    """Returns how likely it is that the score is above a half."""
    mean, error = normal(clusters)
    return math.erfc((0.5 - mean) / error / math.sqrt(2)) / 2


def alone(counts: Sequence[int]) -> dict[Cluster, int]:
    """Returns the clusters of pairs that repeat no other."""
    return {Cluster(1, at): count for at, count in enumerate(counts) if count}


def elo(score: float) -> float:
    """Returns the difference in Elo that has this score; infinite where all is won or lost."""
    if score in (0, 1):
        return math.copysign(math.inf, score - 0.5)
    return 400 * math.log10(score / (1 - score))


def expected(difference: float) -> float:
    """Returns the score that a difference in Elo has."""
    score: float = 1 / (1 + 10 ** (-difference / 400))
    return score


def ratio(counts: Sequence[int], elo0: float, elo1: float) -> float:
    """Returns the log likelihood ratio of two differences in Elo: how much better the second one
    explains the pairs."""
    first, second = expected(elo0), expected(elo1)
    mean, variance = moments([count + ADDED for count in counts])
    return sum(counts) * (second - first) * (2 * mean - first - second) / (2 * variance)


def shares(counts: Sequence[float], mean: float) -> tuple[float, ...]:
    """Returns the shares of the five outcomes that explain pairs best, of all with this mean: of
    each count divided by 1 + lean * (outcome - mean), where the lean is such that they have it."""
    low, high = -1 / (1 - mean), 1 / mean  # between these no share is below 0
    for _ in range(HALVINGS):
        lean = (low + high) / 2
        found = [count / (1 + lean * (at / 4 - mean)) for at, count in enumerate(counts)]
        excess = sum(share * (at / 4 - mean) for at, share in enumerate(found))
        low, high = (lean, high) if excess > 0 else (low, lean)
    return tuple(share / sum(found) for share in found)


def exact_ratio(counts: Sequence[int], elo0: float, elo1: float) -> float:
    """Returns the same ratio without a variance: how much likelier the outcomes are by the shares
    that explain them best with the second difference."""
    added = [count + ADDED for count in counts]
    first, second = (shares(added, expected(difference)) for difference in (elo0, elo1))
    return sum(count * math.log(more / less) for count, less, more in zip(added, first, second))


def others(counts: Sequence[int]) -> int:
    """Returns how many pairs aren't of the most frequent outcome."""
    return sum(counts) - max(counts)


def decision(
    counts: Sequence[int], elo0: float, elo1: float, bounds: Bounds = FIVE_PERCENT
) -> int | None:
    """Returns which of two differences a sequential test accepts, 0 or 1; None where it needs more
    pairs.

    Both ratios have to say so: the first one takes the mean of pairs for normal and the variance
    for known, and errs where outcomes are rare or differences great.
    """
    if sum(counts) < FEWEST or others(counts) < FEWEST_OTHERS:
        return None
    first = accepted(ratio(counts, elo0, elo1), bounds)
    if first is None or accepted(exact_ratio(counts, elo0, elo1), bounds) != first:
        return None
    return first


def accepted(found: float, bounds: Bounds = FIVE_PERCENT) -> int | None:
    """Returns which difference a ratio accepts; None where it is between the bounds."""
    return 1 if found >= bounds.high else 0 if found <= bounds.low else None
