"""Ratings of many engines in Elo, with 95 % intervals, and what Black's first move is worth.

Black of rating r is expected to score p = 1 / (1 + exp(-(r - s + b))) against White of rating s,
where b is Black's advantage. The ratings are those with which the expected points are the points
that were won: the maximum of the likelihood, in which half a point is half a win and half a loss.

An interval follows from how far the pairs of games are from what is expected: a pair with the same
seed is one observation, and so are pairs that repeat each other. So draws and openings need no
model of their own. The variance is that of the sandwich H^-1 J H^-1.

Ratings are of whole pairs, in which both engines had both colours, and b is 0 there. So Elo is that
of a score. A second fit, of all games, has the advantage b.

Beforehand each engine gets one pair of games, half of it won twice and half of it lost twice,
shared out over its opponents. So an engine that won all has a rating, and few games don't look
certain.
"""
from __future__ import annotations

import math
from collections import Counter
from typing import Dict, List, Mapping, NamedTuple, Sequence, Tuple

from .scores import Z, Estimate, Observed, Together

ELO = 400 / math.log(10)  # Elo in a natural unit
STEPS = 60  # of Newton's method at most
SMALL = 1e-9  # a step after which the ratings are found
SMALL_GAIN = 1e-12  # of the logarithm of the likelihood
SHORTEST = 1e-6  # part of a step that is tried
LARGEST = 30.0  # difference in natural units, beyond which a score is taken for 0 or 1

Vector = List[float]
Matrix = List[Vector]
Engines = Tuple[str, str]


# of two engines, how often games were observed that are one observation
Observations = Mapping[Engines, Mapping[Together, float]]

WON_TWICE: Together = (Observed(True, 1.0), Observed(False, 0.0))
LOST_TWICE: Together = (Observed(True, 0.0), Observed(False, 1.0))


class Row(NamedTuple):
    """The games of two engines with the same colours: how many, and Black's points."""

    black: int
    white: int
    games: float
    points: float


class Seen(NamedTuple):
    """Games of two engines that are one observation, and how often there is one like it."""

    one: int
    other: int
    games: Together
    weight: float


class Fit:
    """The ratings that fit the games of engines that are joined by games, from their mean."""

    def __init__(self, names: Sequence[str], observations: Observations) -> None:
        self.places = {name: at for at, name in enumerate(names)}
        count, seen = len(names), with_prior(names, observations)
        rows = rows_of(seen)
        self.values = most_likely(rows, count, False)
        inverse = inverse_of(derivatives(rows, self.values, False)[1])
        self.spread = product(product(inverse, scatter(seen, self.values, False)), inverse)
        self.mean = sum(self.values[:count]) / count
        self.covariances = [sum(row[:count]) / count for row in self.spread]  # with the mean
        self.variance = sum(self.covariances[:count]) / count  # of the mean

    def rating(self, name: str) -> Estimate:
        """Returns the rating of an engine."""
        at = self.places[name]
        variance = self.spread[at][at] - 2 * self.covariances[at] + self.variance
        return estimate(self.values[at] - self.mean, variance)

    def better(self, name: str, other: str) -> float:
        """Returns how likely it is that one engine is better than the other."""
        one, two = self.places[name], self.places[other]
        variance = self.spread[one][one] + self.spread[two][two] - 2 * self.spread[one][two]
        difference = self.values[one] - self.values[two]
        return (1 + math.erf(difference / math.sqrt(2 * variance))) / 2


def advantage(names: Sequence[str], observations: Observations) -> Estimate:
    """Returns Black's advantage in the games of engines that are joined by games."""
    seen = with_prior(names, observations)
    rows = rows_of(seen)
    values = most_likely(rows, len(names), True)
    row = solution([0.0] * len(names) + [1.0], derivatives(rows, values, True)[1])  # of H^-1
    (spread,) = product([row], scatter(seen, values, True))
    return estimate(values[-1], sum(map(float.__mul__, spread, row)))


def estimate(value: float, variance: float) -> Estimate:
    """Returns a number in natural units in Elo, with its interval."""
    half = Z * math.sqrt(max(0.0, variance))
    return Estimate(ELO * value, ELO * (value - half), ELO * (value + half))


def groups_of(engines: Sequence[str], seen: Observations) -> list[list[str]]:
    """Returns the groups of engines that are joined by games, also by those of others, the largest
    one first."""
    neighbours: dict[str, set[str]] = {name: set() for name in engines}
    for one, other in seen:
        neighbours[one].add(other)
        neighbours[other].add(one)
    groups: list[list[str]] = []
    left = list(engines)
    while left:
        group, to_do = {left[0]}, [left[0]]
        while to_do:
            new = neighbours[to_do.pop()] - group
            group |= new
            to_do += new
        groups.append([name for name in left if name in group])
        left = [name for name in left if name not in group]
    return sorted(groups, key=len, reverse=True)


def with_prior(names: Sequence[str], seen: Observations) -> list[Seen]:
    """Returns what was observed of a group, with the pair that each engine gets beforehand."""
    places = {name: at for at, name in enumerate(names)}
    own = {engines: games for engines, games in seen.items() if engines[0] in places}
    opponents = Counter(name for engines in own for name in engines)
    found = []
    for (one, other), some in own.items():
        added = (1 / opponents[one] + 1 / opponents[other]) / 4
        for games, weight in [*some.items(), (WON_TWICE, added), (LOST_TWICE, added)]:
            found.append(Seen(places[one], places[other], games, weight))
    return found


def rows_of(seen: Sequence[Seen]) -> list[Row]:
    """Returns the games by colours."""
    sums: Dict[Tuple[int, int], Vector] = {}
    for one, other, games, weight in seen:
        for is_first, points in games:
            total = sums.setdefault((one, other) if is_first else (other, one), [0.0, 0.0])
            total[0] += weight
            total[1] += weight * points
    return [Row(black, white, *total) for (black, white), total in sums.items()]


def most_likely(rows: Sequence[Row], count: int, has_colours: bool) -> Vector:
    """Returns the ratings that are likeliest, and Black's advantage, by Newton's method."""
    values = [0.0] * (count + 1)
    likely = likelihood(rows, values)
    for _ in range(STEPS):
        step = solution(*derivatives(rows, values, has_colours))
        factor, tried, found = 1.0, values, likely
        while factor > SHORTEST:
            tried = [value + factor * by for value, by in zip(values, step)]
            found = likelihood(rows, tried)
            if found >= likely:
                break
            factor /= 2
        gain, values, likely = found - likely, tried, found
        if max(abs(by) for by in step) < SMALL or gain < SMALL_GAIN:
            break
    return values


def expected(values: Vector, black: int, white: int) -> float:
    """Returns the points that Black is expected to get. The last value is Black's advantage."""
    difference = values[black] - values[white] + values[-1]
    return 1 / (1 + math.exp(-max(-LARGEST, min(LARGEST, difference))))


def likelihood(rows: Sequence[Row], values: Vector) -> float:
    """Returns the logarithm of the likelihood."""
    total = 0.0
    for row in rows:
        chance = expected(values, row.black, row.white)
        total += row.points * math.log(chance)
        total += (row.games - row.points) * math.log1p(-chance)
    return total


def derivatives(rows: Sequence[Row], values: Vector, has_colours: bool) -> tuple[Vector, Matrix]:
    """Returns the first derivatives of the likelihood, and the second ones with their sign turned.

    The mean of all ratings is held at 0, and so is Black's advantage where it isn't asked for.
    """
    size = len(values)
    last = size - 1
    mean = sum(values[:last])
    slope = [-mean] * last + [0.0]
    curvature = [[1.0] * last + [0.0] for _ in range(last)] + [[0.0] * last + [1.0 - has_colours]]
    for row in rows:
        chance = expected(values, row.black, row.white)
        rest, weight = row.points - row.games * chance, row.games * chance * (1 - chance)
        signs = [(row.black, 1), (row.white, -1)] + [(last, 1)] * has_colours
        for one, sign in signs:
            slope[one] += sign * rest
            for other, other_sign in signs:
                curvature[one][other] += sign * other_sign * weight
    return slope, curvature


def scatter(seen: Sequence[Seen], values: Vector, has_colours: bool) -> Matrix:
    """Returns how far the observations are from what is expected: the sum of their squares."""
    size = len(values)
    last = size - 1
    total = [[0.0] * size for _ in range(size)]
    for one, other, games, weight in seen:
        off = {one: 0.0, other: 0.0, last: 0.0}
        for is_first, points in games:
            black, white = (one, other) if is_first else (other, one)
            rest = points - expected(values, black, white)
            off[black] += rest
            off[white] -= rest
            off[last] += rest if has_colours else 0.0
        for row, a in off.items():
            for column, b in off.items():
                total[row][column] += weight * a * b
    return total


# ---- matrices, of which each that is solved is positive definite, so no row is exchanged


def solution(right: Vector, matrix: Matrix) -> Vector:
    """Returns the vector that the matrix makes the right side of, by elimination."""
    work = [[*row, value] for row, value in zip(matrix, right)]
    for at, pivot in enumerate(work):
        for row in work[at + 1 :]:
            factor = row[at] / pivot[at]
            if factor:
                row[at:] = [value - factor * by for value, by in zip(row[at:], pivot[at:])]
    found: Vector = []  # from the last one on
    for row in reversed(work):
        size = len(work) - len(found)
        known = sum(a * b for a, b in zip(row[size:-1], reversed(found)))
        found.append((row[-1] - known) / row[size - 1])
    return found[::-1]


def inverse_of(matrix: Matrix) -> Matrix:
    """Returns the inverse, by elimination in place."""
    work = [list(row) for row in matrix]
    for at, pivot in enumerate(work):
        scale = 1 / pivot[at]
        pivot[at] = 1.0
        pivot[:] = [value * scale for value in pivot]
        for row in work:
            if row is not pivot:
                factor, row[at] = row[at], 0.0
                row[:] = [value - factor * by for value, by in zip(row, pivot)]
    return work


def product(one: Matrix, other: Matrix) -> Matrix:
    """Returns the product of two matrices."""
    columns = list(zip(*other))
    return [[sum(map(float.__mul__, row, column)) for column in columns] for row in one]
