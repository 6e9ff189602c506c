"""Where engines stand: their ratings, and how sure these are. Every form of the tally has its
ratings and intervals from here."""
from __future__ import annotations

from collections import Counter
from typing import NamedTuple

from .pairs import PairCounts, Pairs
from .scores import Estimate, Together

FEWEST, MOST = 3, 200  # engines that are rated: the time that it takes rises by their third power
MOST_AGAIN = 30  # engines of which the leader is looked for again and again


class Standing(NamedTuple):
    """The rating of an engine, from the mean of its group, and how likely it is that the engine is
    better than the next one; None for the last one."""

    engine: str
    rating: Estimate
    better: float | None


class Standings:
    """The ratings of all engines: of each group that is joined by games, the best engine first.
    None are there of two engines, whose pairs say it all, and of more than can be rated."""

    def __init__(self, pairs: Pairs, engines: list[str]) -> None:
        self.groups: list[list[Standing]] = []
        self.black: Estimate | None = None  # what the first move is worth, in the largest group
        self.are_too_many = len(engines) > MOST
        if len(engines) < FEWEST or self.are_too_many:
            return
        from .ratings import Fit, advantage, groups_of  # which isn't needed elsewhere

        whole: dict[tuple[str, str], Counter[Together]] = {}
        every: dict[tuple[str, str], Counter[Together]] = {}
        for pairing in pairs.pairings():
            sides = (pairing.first, pairing.second)
            seen = pairs.observed(pairing)
            whole[sides], every[sides] = seen, seen + pairs.observed_alone(pairing)
        whole = {sides: seen for sides, seen in whole.items() if seen}
        every = {sides: seen for sides, seen in every.items() if seen}
        groups = [group for group in groups_of(engines, whole) if len(group) > 1]
        for names in groups:
            fit = Fit(names, whole)
            order = sorted(names, key=lambda name: -fit.rating(name).elo)
            better = [fit.better(*two) for two in zip(order, order[1:])]
            self.groups.append(
                [
                    Standing(name, fit.rating(name), chance)
                    for name, chance in zip(order, [*better, None])
                ]
            )
        if every:
            black = advantage(groups_of(engines, every)[0], every)
            # an interval of no width is no knowledge: no pair was won by a colour
            self.black = black if black.high - black.low > 1 else None


class Leader(NamedTuple):
    """The best engine: its share of all points in pairs, and its rating: from the mean of all, or
    of two engines from the other one."""

    engine: str
    score: float
    rating: Estimate


def leader(pairs: Pairs, engines: list[str]) -> Leader | None:
    """Returns the best engine; None where no pair is there, or engines are too many for a look
    now and then."""
    if len(engines) > MOST_AGAIN:
        return None
    found = {name: PairCounts() for name in engines}
    for pairing in pairs.pairings():
        counts = pairs.of_two(pairing)
        found[pairing.first].add(counts)
        found[pairing.second].add(counts.turned())
    if len(engines) < FEWEST:
        rated = [(name, found[name].estimate()) for name in engines]
        ratings = {name: rating for name, rating in rated if rating}
    else:
        groups = Standings(pairs, engines).groups[:1]
        ratings = {each.engine: each.rating for group in groups for each in group}
    if not ratings:
        return None
    best = max(ratings, key=lambda name: ratings[name].elo)
    return Leader(best, found[best].score() or 0.0, ratings[best])
