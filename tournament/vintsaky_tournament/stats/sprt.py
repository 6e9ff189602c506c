"""The sequential test: which of two differences in Elo fits two engines.

Pairs count in the order of their seeds, up to the first that isn't whole. One is left out where a
game of it has no result after its try, or where it repeats an earlier one. The test is over at the
first pair at which it accepts a difference: what is played later changes nothing.
"""
from __future__ import annotations

import math
from typing import TYPE_CHECKING, Callable, Collection, NamedTuple, Sequence

from . import scores
from .pairs import OUTCOMES, Score
from .scores import Bounds

if TYPE_CHECKING:
    from .pairs import Pairs

MOST = 800  # Elo of a difference: tests of greater ones weren't simulated
ERROR = 0.05  # how often a test accepts the wrong difference


class TestRequest(NamedTuple):
    """A test that is asked for: two differences in Elo, two engines, and how often the second
    difference may be accepted where the first one is true (alpha), and the other way (beta)."""

    differences: tuple[float, float]
    engines: Sequence[str]
    alpha: float = ERROR
    beta: float = ERROR

    def bounds(self) -> Bounds:
        """Returns the bounds of the log likelihood ratio."""
        low, high = self.beta / (1 - self.alpha), (1 - self.beta) / self.alpha
        return Bounds(math.log(low), math.log(high))

    def text(self) -> str:
        """Returns it in words, which no other one has."""
        numbers = (*self.differences, self.alpha, self.beta)
        return " ".join([*self.engines, *(f"{number:g}" for number in numbers)])


class Test:
    """A sequential test of the first of two engines against the second. It is given which games
    have no result after their try, and which had none when the test was over before."""

    def __init__(
        self,
        pairs: Pairs,
        asked: TestRequest,
        has_failed: Callable[[int], bool],
        known_left_out: Collection[int] = (),
    ) -> None:
        self.pairs, self.has_failed, self.bounds = pairs, has_failed, asked.bounds()
        self.known_left_out = known_left_out
        self.engines, self.differences = list(asked.engines), asked.differences
        (self.pairing,) = (each for each in pairs.pairings() if set(each[:2]) == set(self.engines))
        self.counts = [0] * 5
        self.decision: int | None = None
        self.seed = 0  # of the last pair that was looked at, which is where the test is over
        self.skipped: list[int] = []  # games of pairs that are left out
        self.known: tuple[set[int], set[int]] = (set(), set())  # the moves of pairs that count
        self.go_on()

    @property
    def ratio(self) -> float:
        """Returns the log likelihood ratio."""
        return scores.ratio(self.counts, *self.differences) if any(self.counts) else 0.0

    @property
    def exact(self) -> float:
        """Returns the ratio without a variance."""
        return scores.exact_ratio(self.counts, *self.differences) if any(self.counts) else 0.0

    def awaited(self) -> list[int]:
        """Returns the games of the pair that is looked at next; none where the test is over."""
        if self.decision is not None or self.seed == self.pairs.games.seeds:
            return []
        first = self.seed * len(self.pairs.games.sides)
        return [first + self.pairing.as_black, first + self.pairing.as_white]

    def go_on(self) -> None:
        """Counts the pairs that are there by now."""
        while games := self.awaited():
            is_left_out = any(map(self.is_left_out, games))
            if not is_left_out and any(self.is_missing(game) for game in games):
                return
            self.seed += 1
            if is_left_out:
                self.skipped += games
            else:
                self.add(games)

    def is_missing(self, game: int) -> bool:
        """Returns whether a game has no result."""
        return self.pairs.scores[game] == Score.NONE

    def is_left_out(self, game: int) -> bool:
        """Returns whether the pair of a game is left out because of this game."""
        return game in self.known_left_out or self.is_missing(game) and self.has_failed(game)

    def left_out(self) -> list[int]:
        """Returns the games without a result after their try, whose pairs are left out."""
        return [game for game in self.skipped if self.is_left_out(game)]

    def add(self, games: Sequence[int]) -> None:
        """Counts a pair, unless it is out or repeats an earlier one."""
        one, other = (self.pairs.scores[game] for game in games)
        moves = [self.pairs.moves[game] for game in games]
        if (one, other) not in OUTCOMES or any(map(set.__contains__, self.known, moves)):
            return
        for known, played in zip(self.known, moves):
            known.update([played] if played else [])
        outcome = OUTCOMES[one, other]
        self.counts[outcome if self.pairing.first == self.engines[0] else 4 - outcome] += 1
        self.decision = scores.decision(self.counts, *self.differences, self.bounds)
