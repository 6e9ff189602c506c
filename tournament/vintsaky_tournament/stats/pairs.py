"""The pairs of a folder's games: two games of the same two engines with the same seed, one with
each colour.

Where engines play the same moves again, the later game says nothing new: games with the same
engines, colours, opening and moves, more than 20. A score counts all games. How sure it is follows
from clusters: pairs of which one repeats the other count as one there. A test counts only pairs
that repeat none.
"""
from __future__ import annotations

import enum
from array import array
from collections import Counter, defaultdict
from typing import Collection, Iterable, Mapping, NamedTuple, Sequence

from ..model import Ending, Plan, Result, Side, Way
from . import scores
from .scores import Cluster, Estimate, Observed, Together

SHORT = 20  # moves up to which games may be the same by chance


class Score(enum.IntEnum):
    """What a game was for Black."""

    NONE = 0  # no result yet
    LOST = 1
    HALF = 2
    WON = 3
    OUT = 4  # not to be counted


# of two games, the first engine's with Black and then its with White: the outcome of the pair
COUNTED = (Score.LOST, Score.HALF, Score.WON)
OUTCOMES = {
    (int(one), int(other)): one - Score.LOST + Score.WON - other
    for one in COUNTED
    for other in COUNTED
}


POINTS = {int(score): (score - Score.LOST) / 2 for score in COUNTED}  # of Black


class Pairing(NamedTuple):
    """Two engines that play each other, and the numbers of their two games within a seed."""

    first: str
    second: str
    as_black: int  # the game in which the first one has Black
    as_white: int


class Pairs:
    """What the games were for Black, and what moves they have, by their numbers. The ways are given
    in which a game that nobody won isn't counted."""

    def __init__(self, plan: Plan, out: Collection[Way] = ()) -> None:
        self.games, self.openings, self.out = plan.games(), plan.openings, out
        self.scores = bytearray(self.games.count)
        # a number of the opening and the moves; 0 for few moves
        self.moves = array("q", [0]) * self.games.count

    def add(self, game: int, ending: Ending, result: Result) -> None:
        """Takes a game that ended so."""
        if ending.winner is not None:
            self.scores[game] = Score.LOST if ending.winner is Side.WHITE else Score.WON
        else:
            self.scores[game] = Score.OUT if ending.way in self.out else Score.HALF
        self.moves[game] = self.number_of(game, result)

    def number_of(self, game: int, result: Result) -> int:
        """Returns the number of a game's opening and moves; 0 where there are so few that they may
        be the same by chance."""
        opening = ""
        if self.openings:
            opening = self.openings[game // len(self.games.sides) % len(self.openings)]
        own = result.length - len(opening.split())
        return hash((opening, result.vertices)) if own > SHORT else 0

    def pairings(self) -> list[Pairing]:
        """Returns each two engines that play each other."""
        return [
            Pairing(*sides, at, at + 1) for at, sides in enumerate(self.games.sides) if not at % 2
        ]

    def scores_of(self, number: int) -> bytearray:
        """Returns the scores of the games with this number within a seed, by the seed."""
        return self.scores[number :: len(self.games.sides)]

    def moves_of(self, number: int) -> array[int]:
        """Returns the moves of the games with this number within a seed, by the seed."""
        return self.moves[number :: len(self.games.sides)]

    def of_two(self, pairing: Pairing) -> PairCounts:
        """Returns the pairs of two engines."""
        first, second = self.scores_of(pairing.as_black), self.scores_of(pairing.as_white)
        counts = counts_of(zip(first, second))
        return PairCounts(counts, clusters_of(counts, first, second, self.repeats(pairing)))

    def observed(self, pairing: Pairing) -> Counter[Together]:
        """Returns the pairs of two engines, of which those that repeat each other are one."""
        first, second = self.scores_of(pairing.as_black), self.scores_of(pairing.as_white)
        found = Counter[Together]()
        for ends, count in Counter(zip(first, second)).items():
            if ends in OUTCOMES:
                found[games_of(ends)] += count
        several: dict[int, Together] = {}  # of a seed, its games and those of pairs like it
        for seed, before in self.repeats(pairing).items():
            alone = [games_of((first[one], second[one])) for one in (before, seed)]
            found[alone[1]] -= 1
            if before not in several:
                found[alone[0]] -= 1
                several[before] = alone[0]
            several[before] += alone[1]
        found.update(several.values())
        return +found

    def observed_alone(self, pairing: Pairing) -> Counter[Together]:
        """Returns the games of two engines that count, but whose pair isn't whole."""
        first, second = self.scores_of(pairing.as_black), self.scores_of(pairing.as_white)
        found = Counter[Together]()
        for ends, count in Counter(zip(first, second)).items():
            if ends not in OUTCOMES and (games := games_of(ends)):
                found[games] += count
        return found

    def repeats(self, pairing: Pairing) -> dict[int, int]:
        """Returns the pairs of which a game is the same as one in an earlier pair that repeats none
        itself: of the seed of each, the seed of the first such pair."""
        sides = [self.moves_of(pairing.as_black), self.moves_of(pairing.as_white)]
        if not any(has_twice(moves) for moves in sides):
            return {}
        known: tuple[dict[int, int], dict[int, int]] = ({}, {})  # of moves, their first seed
        found = {}
        first, second = self.scores_of(pairing.as_black), self.scores_of(pairing.as_white)
        for seed, ends in enumerate(zip(first, second)):
            if ends in OUTCOMES:
                played = [moves[seed] for moves in sides]
                before = [seeds[moves] for moves, seeds in zip(played, known) if moves in seeds]
                if before:
                    found[seed] = min(before)
                else:
                    for moves, seeds in zip(played, known):
                        seeds.update({moves: seed} if moves else {})
        return found

    def same(self) -> list[list[int]]:
        """Returns the numbers of games that are the same, move by move, in groups and in the plan's
        order."""
        found = []
        for number in range(len(self.games.sides)):
            played = self.moves_of(number)
            if has_twice(played):
                groups = defaultdict(list)
                for seed, moves in enumerate(played):
                    if moves:
                        groups[moves].append(seed * len(self.games.sides) + number)
                found += [group for group in groups.values() if len(group) > 1]
        return sorted(found)


class PairCounts:
    """The pairs of two engines: how many have each outcome, and how many clusters there are of each
    kind. A pair is in one with the earlier pair that it repeats, and else alone."""

    def __init__(
        self, every: Sequence[int] = (0,) * 5, clusters: Mapping[Cluster, int] | None = None
    ) -> None:
        self.every, self.clusters = list(every), Counter(clusters or {})

    def add(self, other: PairCounts) -> None:
        """Adds other pairs."""
        self.every = [one + more for one, more in zip(self.every, other.every)]
        self.clusters.update(other.clusters)

    def turned(self) -> PairCounts:
        """Returns the same pairs, as the other engine sees them."""
        clusters = {
            Cluster(size, 4 * size - won): count for (size, won), count in self.clusters.items()
        }
        return PairCounts(self.every[::-1], clusters)

    def score(self) -> float | None:
        """Returns the score; None where there is no pair."""
        return scores.moments(self.every)[0] if any(self.every) else None

    def interval(self) -> tuple[float, float] | None:
        """Returns the 95 % interval of the score; None where there is no pair."""
        return scores.interval(self.clusters) if self.clusters else None

    def better(self) -> float | None:
        """Returns how likely it is that the engine is better; None where there is no pair."""
        return scores.better(self.clusters) if self.clusters else None

    def estimate(self) -> Estimate | None:
        """Returns the score and its interval as differences in Elo; None where there is no pair."""
        score, interval = self.score(), self.interval()
        if score is None or interval is None:
            return None
        return Estimate(*map(scores.elo, (score, *interval)))


def games_of(ends: tuple[int, int]) -> Together:
    """Returns those of two games that count: the first engine's with Black, and with White."""
    return tuple(
        Observed(is_first, POINTS[end])
        for is_first, end in zip((True, False), ends)
        if end in POINTS
    )


def clusters_of(
    counts: Sequence[int], first: bytearray, second: bytearray, repeats: Mapping[int, int]
) -> Counter[Cluster]:
    """Returns how many clusters there are of each kind, where these seeds repeat others."""
    found = Counter(scores.alone(counts))
    several: dict[int, list[int]] = {}  # of a seed, the outcomes of its pair and those like it
    for seed, before in repeats.items():
        ends = several.setdefault(before, [OUTCOMES[first[before], second[before]]])
        ends.append(OUTCOMES[first[seed], second[seed]])
    for ends in several.values():
        found.subtract(Cluster(1, end) for end in ends)
        found[Cluster(len(ends), sum(ends))] += 1
    return +found


def has_twice(moves: Sequence[int]) -> bool:
    """Returns whether a number other than 0 is there twice."""
    if len(moves) < 2:
        return False
    played = [number for number in moves if number]
    return len(set(played)) < len(played)


def counts_of(ends: Iterable[tuple[int, int]]) -> list[int]:
    """Returns how many of these pairs of games have each outcome."""
    counts = [0] * 5
    for end, count in Counter(ends).items():
        if end in OUTCOMES:
            counts[OUTCOMES[end]] += count
    return counts
