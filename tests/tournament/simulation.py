"""Simulated tournaments, whose true differences in Elo are known."""
from __future__ import annotations

import math
import random
from bisect import bisect
from itertools import accumulate, combinations
from pathlib import Path
from typing import Any, Callable, Dict, List, NamedTuple, Optional, Sequence, Tuple

from .inside import module

scores = module("stats.scores")

LONGEST = 10**6  # pairs of a test
Differences = Tuple[float, float]
# which of two differences is accepted, 0 or 1, by the counts of the five outcomes of pairs
Decide = Callable[[Sequence[int], float, float], Optional[int]]

# ---- how likely each outcome of a pair is, where the first engine has this score


def independent(score: float) -> List[float]:
    """Returns that of two games that know nothing of each other, without draws."""
    return [(1 - score) ** 2, 0, 2 * score * (1 - score), 0, score**2]


def drawish(score: float) -> List[float]:
    """Returns the same with draws: two of five games where both engines are as strong."""
    drawn = 0.8 * min(score, 1 - score)
    lost, won = 1 - score - drawn / 2, score - drawn / 2
    return [lost**2, 2 * lost * drawn, drawn**2 + 2 * lost * won, 2 * drawn * won, won**2]


def by_colour(score: float) -> List[float]:
    """Returns that where one colour wins most games, such as White with much komi."""
    more = 0.8 * min(score, 1 - score)
    one, other = score + more, score - more
    return [(1 - one) * (1 - other), 0, one * (1 - other) + other * (1 - one), 0, one * other]


def by_seed(score: float) -> List[float]:
    """Returns that where in half of all pairs the seed decides who wins both games."""
    return [
        (whole + part) / 2 for whole, part in zip((1 - score, 0, 0, 0, score), independent(score))
    ]


def by_colour_alone(score: float) -> List[float]:
    """Returns that where the stronger engine wins all games with one colour, and few others."""
    more = abs(2 * score - 1)
    return [0, 0, 1 - more, 0, more] if score >= 0.5 else [more, 0, 1 - more, 0, 0]


def hardly_decided(score: float) -> List[float]:
    """Returns that where 99 of a hundred pairs are 1-1, or as many as the score allows."""
    decided = max(0.01, abs(2 * score - 1))
    won = (decided + 2 * score - 1) / 2
    return [decided - won, 0, 1 - decided, 0, won]


def hardly_lost(score: float) -> List[float]:
    """Returns that where an engine that seldom loses a game loses both."""
    lost = 0.02
    even = 3 - 3 * lost - 4 * score
    return [lost, 0, even, 1 - lost - even, 0]


Kind = Callable[[float], List[float]]
KINDS: List[Kind] = [
    independent,
    drawish,
    by_colour,
    by_seed,
    by_colour_alone,
    hardly_decided,
    hardly_lost,
]

# ---- tests of two engines


def by_ratio(counts: Sequence[int], low: float, high: float) -> Optional[int]:
    """Returns what a test accepts by a mean and a variance alone, from 48 pairs on."""
    if sum(counts) < 48:
        return None
    accepted: Optional[int] = scores.accepted(scores.ratio(counts, low, high))
    return accepted


def accepted_in(
    likely: Sequence[float], differences: Differences, source: random.Random, decide: Decide
) -> Tuple[int, int]:
    """Returns which difference a test accepts whose pairs are random, and after how many pairs."""
    counts, sums = [0] * 5, list(accumulate(likely))
    for pairs in range(1, LONGEST):
        counts[bisect(sums, source.random() * sums[-1], 0, 4)] += 1
        decision = decide(counts, *differences)
        if decision is not None:
            return decision, pairs
    raise AssertionError(f"no decision in {LONGEST} pairs")


class Rate(NamedTuple):
    """How often tests err, and how many pairs they take on average."""

    errors: float
    pairs: float


def error_rates(
    kind: Kind, differences: Differences, count: int, decide: Decide = scores.decision
) -> List[Rate]:
    """Returns of each of two differences how so many tests end of which it is the true one."""
    source, rates = random.Random(1), []
    for right, true in enumerate(differences):
        likely = kind(scores.expected(true))
        ends = [accepted_in(likely, differences, source, decide) for _ in range(count)]
        errors = sum(accepted != right for accepted, _ in ends)
        rates.append(Rate(errors / count, sum(pairs for _, pairs in ends) / count))
    return rates


def highest_rate(count: int, rate: float = 0.06) -> float:
    """Returns what so many tests may come to where this is the rate: two standard errors more."""
    return rate + 2 * math.sqrt(rate * (1 - rate) / count)


# ---- tournaments of many engines


def strengths(count: int, step: int = 20) -> Dict[str, int]:
    """Returns the Elo of so many engines, each of which is so much stronger than the one before."""
    return {f"e{number:02}": step * number for number in range(count)}


def write_tournament(folder: Path, elos: Dict[str, int], seeds: int) -> None:
    """Writes a tournament of these engines, in which Black wins as often as White."""
    source = random.Random(1)
    (folder / "games").mkdir(parents=True)
    engines = "".join(f"engine {name} {name} %s\n" for name in elos)
    (folder / "plan").write_text(f"{engines}seeds {seeds}\nlimit 600\n")
    record = "D4 " * 29
    for one, other in combinations(elos, 2):
        score = scores.expected(elos[one] - elos[other])
        for seed in range(1, seeds + 1):
            moves = f"{record}{point(seed)} {point(seed // 361)}"
            for black, white, share in ((one, other, score), (other, one, 1 - score)):
                winner = "B" if source.random() < share else "W"
                result = f"game 1: {winner}+R moves 31 restarts 0 0\n{moves}\n"
                (folder / f"games/{seed}_{black}_{white}").write_text(result)


def point(number: int) -> str:
    """Returns a point of 19x19, another one for each number below 361."""
    return f"{'ABCDEFGHJKLMNOPQRST'[number // 19 % 19]}{number % 19 + 1}"


def count_inside(found: Dict[str, Any], elos: Dict[str, int]) -> int:
    """Returns of how many pairs of engines the true difference is inside the interval."""
    count = 0
    for pair in found["pairs"]:
        one, other = pair["engines"]
        low, high = pair["interval"]
        count += low <= scores.expected(elos[one] - elos[other]) <= high
    return count
