"""How numbers of the tally came about: the score of two engines after each pair, and a sequential
test after each pair that it counts."""
from __future__ import annotations

from collections import Counter
from typing import Collection, NamedTuple, Sequence

from ...stats import scores
from ...stats.pairs import OUTCOMES, Pairing, Pairs
from ...stats.scores import Cluster
from ...stats.sprt import Test, TestRequest
from ...stats.summary import Counts
from .svg import some

MOST = 120  # points of a curve
MOST_OF_TEST = 250


class AfterPairs(NamedTuple):
    """The score of two engines after so many pairs, with its 95 % interval."""

    pairs: int
    score: float
    low: float
    high: float


def course_of(pairs: Pairs, pairing: Pairing, is_turned: bool) -> list[AfterPairs]:
    """Returns the scores of two engines, of the first or else of the second one, after some numbers
    of pairs, in the order of seeds. The last one has all pairs, as the tally has them."""
    first, second = pairs.scores_of(pairing.as_black), pairs.scores_of(pairing.as_white)
    repeats = pairs.repeats(pairing)
    whole = [seed for seed, ends in enumerate(zip(first, second)) if ends in OUTCOMES]
    wanted = set(some(len(whole), MOST))
    counts, clusters, found = [0] * 5, Counter[Cluster](), []
    own: dict[int, Cluster] = {}  # the cluster of a seed that repeats no other
    for at, seed in enumerate(whole):
        outcome = OUTCOMES[first[seed], second[seed]]
        outcome = 4 - outcome if is_turned else outcome
        counts[outcome] += 1
        original = repeats.get(seed, seed)
        before = own.get(original, Cluster(0, 0))
        own[original] = Cluster(before.pairs + 1, before.half_points + outcome)
        clusters[before] -= 1
        clusters[own[original]] += 1
        if at in wanted:
            interval = scores.interval({key: n for key, n in clusters.items() if n > 0})
            found.append(AfterPairs(at + 1, scores.moments(counts)[0], *interval))
    return found


class AfterPair(NamedTuple):
    """Both ratios of a sequential test after so many pairs."""

    pairs: int
    ratio: float
    exact: float


class Course(Test):
    """A sequential test, with what it said after each pair."""

    def __init__(
        self, counts: Counts, asked: TestRequest, known_left_out: Collection[int] = ()
    ) -> None:
        self.outcomes: list[Sequence[int]] = []  # the five counts after each pair
        super().__init__(counts.pairs, asked, counts.has_failed, known_left_out)

    def add(self, games: Sequence[int]) -> None:
        """Counts a pair, unless it is out or repeats an earlier one."""
        before = sum(self.counts)
        super().add(games)
        if sum(self.counts) > before:
            self.outcomes.append(tuple(self.counts))

    def points(self) -> list[AfterPair]:
        """Returns the ratios after some of the pairs, from the first on at which a test says
        anything, with the last one."""
        first = min(scores.FEWEST, len(self.outcomes)) - 1
        rest = self.outcomes[max(0, first) :]
        return [
            AfterPair(
                max(0, first) + at + 1,
                scores.ratio(rest[at], *self.differences),
                scores.exact_ratio(rest[at], *self.differences),
            )
            for at in some(len(rest), MOST_OF_TEST)
        ]
