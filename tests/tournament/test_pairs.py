"""The pairs of two engines: their score, its interval, and games that repeat others."""
from __future__ import annotations

import json
import math
from typing import Any, Dict, List, Optional, Sequence

import pytest

from .runner import Runner
from .written import EVEN, LOST, WON, Pair, pairs_of, write_pairs


def tally(runner: Runner, *words: str) -> Dict[str, Any]:
    """Returns the tally of the tournament `all`, as programs read it."""
    return dict(json.loads(runner.tally("all", "--json", *words).output))


def pair_of_a(found: Dict[str, Any]) -> Dict[str, Any]:
    """Returns what a tally has of the pairs of a and b, as a sees them."""
    (pair,) = found["pairs"]
    if pair["engines"] == ["a", "b"]:
        return dict(pair)
    low, high = pair["interval"]
    return {
        **pair,
        "pairs": pair["pairs"][::-1],
        "score": 1 - pair["score"],
        "interval": [1 - high, 1 - low],
        "elo": pair["elo"] and -pair["elo"],
        "elo_interval": [end and -end for end in pair["elo_interval"][::-1]],
    }


def elo_of(score: float) -> Optional[float]:
    """Returns the difference in Elo that has a score; None where it is infinite."""
    return 400 * math.log10(score / (1 - score)) if 0 < score < 1 else None


each_order = pytest.mark.parametrize("names", ["ab", "ba"], ids="the plan names {}".format)


# Counted by R 4.2, where n is the counts: x <- (0:4)/4; w <- n + c(.5,0,0,0,.5);
# m <- weighted.mean(x, w); m + c(-1,1) * qnorm(.975) * sqrt(sum(w * (x-m)^2) / sum(w) / sum(n))
@each_order
@pytest.mark.parametrize(
    "counts, interval",
    [
        ((1, 0, 2, 2, 2), (0.363088795694101, 0.886911204305899)),
        ((10, 20, 40, 30, 20), (0.509503603140252, 0.614463339008509)),
        ((0, 0, 10, 0, 0), (0.406562383223617, 0.593437616776383)),
        ((0, 0, 0, 0, 10), (0.825442834050307, 1)),
        ((10, 0, 0, 0, 0), (0, 0.174557165949693)),
        ((3, 1, 4, 1, 5), (0.361178079978215, 0.772155253355118)),
        ((0, 0, 0, 0, 1), (0, 1)),
        ((0, 1, 0, 0, 0), (0, 1)),
    ],
    ids=str,
)
def test_interval(
    counts: Sequence[int], interval: Sequence[float], names: str, runner: Runner
) -> None:
    write_pairs(runner.folder / "all", pairs_of(counts), names)
    pair = pair_of_a(tally(runner))
    score = sum(points * count for points, count in enumerate(counts)) / 4 / sum(counts)
    assert pair["pairs"] == list(counts)
    assert pair["score"] == pytest.approx(score, rel=1e-9)
    assert pair["interval"] == pytest.approx(interval, rel=1e-9)
    assert pair["elo"] == pytest.approx(elo_of(score), rel=1e-9)
    assert pair["elo_interval"] == pytest.approx(list(map(elo_of, pair["interval"])), rel=1e-9)


def repeated(count: int, *groups: Sequence[Pair]) -> List[Pair]:
    """Returns as many groups of pairs of each kind. The pairs of a group have the same moves."""
    pairs = []
    for kind, group in enumerate(groups):
        for number in range(count):
            moves = f"{chr(ord('A') + kind)}{21 + number}"
            pairs += [pair._replace(first_moves=moves, second_moves=moves) for pair in group]
    return pairs


# Two equal pairs, and two alone, four times. The squares of the sizes are 4 * (4 + 1 + 1), so 24/16
# pairs are added. The mean is (4 * (2 + 0 + 1/2) + 3/4) / (35/2) = 43/70. The clusters are off by
# 2 - 86/70 = 54/70, -43/70 and 1/2 - 43/70 = -8/70, whose squares sum up to 4 * 4829/4900, and what
# is added has 9/4 * (43^2 + 27^2)/4900 / 2 = 2900.25/4900. So the half is
# 1.95996 * sqrt(22216.25/4900 / (35/2) / 16) = 0.24941.
TWO = repeated(4, [WON, WON], [LOST], [EVEN])
# Three pairs of one kind, won, won and 1-1, and one alone, lost, four times: 40/16 are added, the
# mean is (4 * 5/2 + 5/4) / (37/2) = 45/74, off by 5/2 - 135/74 = 50/74 and -45/74: 4 * 4525/5476,
# and 25/4 * (45^2 + 29^2)/5476 / 2 = 8956.25/5476: the half is 1.95996 * sqrt(27056.25/5476 /
# (37/2) / 16) = 0.25322.
THREE = repeated(4, [WON, WON, EVEN], [LOST])


@pytest.mark.parametrize(
    "pairs, clusters, interval",
    [
        pytest.param(TWO, 12, (0.36487999274010996, 0.8636914358313187), id="twice"),
        pytest.param(THREE, 8, (0.35488442728609454, 0.8613317889301217), id="three times"),
        pytest.param(
            repeated(10, [WON] * 12), 10, (0.825442834050307, 1), id="each as often as others"
        ),
    ],
)
def test_pairs_that_repeat_each_other_count_once_in_the_interval(
    pairs: List[Pair], clusters: int, interval: Sequence[float], runner: Runner
) -> None:
    write_pairs(runner.folder / "all", pairs)
    pair = pair_of_a(tally(runner))
    assert pair["pairs_in_interval"] == clusters
    assert pair["interval"] == pytest.approx(interval, rel=1e-9)


# ---- which games repeat others

PLAYED = [  # and for a each seed is
    Pair("B+R", "W+R", "A", "B"),  # 2
    Pair("W+R", "B+R", "S20", "S20"),  # 0
    Pair("B+R", "B+R", "A", "C"),  # 1, not new: its first game is that of seed 1
    # 1, and new: its second game is that of seed 3, which isn't new
    Pair("B+R", "B+R", "D", "C"),
    Pair("W+R", "W+R", "S20", "S20"),  # 1, and new: these moves are too few to be the same
    Pair("0", "limit", "E", "F"),  # 1, or out where games are that nobody won
    Pair("0", "B+R", "H", "J"),  # 1/2
    Pair("B+R", None, "G"),  # not whole
    Pair("B+R", "W+R", "G", "N"),  # 2, and new: the other game with these moves is in no pair
    Pair("B+R", "W+R", "K", "B"),  # 2, not new: its second game is that of seed 1
    Pair("B+R", "W+R", "N", "L"),  # 2, and new: these moves were played with the other colours
    Pair("B+R", "W+R", "H", "M"),  # 2, not new: its first game is that of seed 7
    # 2, not new: it has a game of seed 1 and one of seed 7, so it is in a cluster with the first
    Pair("B+R", "W+R", "H", "B"),
]
# The seeds 1, 3, 10 and 13 are one cluster, with 4 + 2 + 4 + 4 half points; 7 and 12 are one, with
# 1 + 4. The seeds 2, 4, 5, 6, 9 and 11 are alone, with 0, 2, 2, 2, 4 and 4. So there are 8, and
# 26/12 pairs are added. The mean is (33/4 + 13/12) / (12 + 26/12) = 56/85, and so on as above.
INTERVAL = (0.4078776047787555, 0.9097694540447742)
SAME = [
    ["1_a_b", "3_a_b"],
    ["1_b_a", "10_b_a", "13_b_a"],
    ["3_b_a", "4_b_a"],
    ["7_a_b", "12_a_b", "13_a_b"],
    ["8_a_b", "9_a_b"],
]


@each_order
def test_repeated_games(names: str, runner: Runner) -> None:
    write_pairs(runner.folder / "all", PLAYED, names)
    found = tally(runner)
    pair = pair_of_a(found)
    assert pair["pairs"] == [1, 1, 4, 0, 6]
    assert pair["score"] == pytest.approx(33 / 48)
    assert pair["pairs_in_interval"] == 8
    assert pair["interval"] == pytest.approx(INTERVAL, rel=1e-9)
    assert sorted(found["same"]) == sorted(SAME)


@pytest.mark.parametrize(
    "words, counts, in_a_test",
    [
        pytest.param([], [1, 1, 4, 0, 6], [1, 1, 3, 0, 1], id="half a point for no winner"),
        pytest.param(
            ["--no-winner", "out"], [1, 1, 3, 0, 6], [1, 1, 2, 0, 1], id="without no winner"
        ),
    ],
)
def test_a_test_counts_new_pairs_up_to_the_first_that_is_not_whole(
    words: List[str], counts: List[int], in_a_test: List[int], runner: Runner
) -> None:
    write_pairs(runner.folder / "all", PLAYED)
    found = tally(runner, "--sprt", "0", "10", *words)
    assert pair_of_a(found)["pairs"] == counts
    assert found["sprt"]["pairs"] == in_a_test


@pytest.mark.parametrize(
    "first",
    [Pair(None, None), Pair(None, "B+R", "", "Q"), Pair("B+R", None, "Q", "")],
    ids=["no game", "the second game", "the first game"],
)
def test_a_test_counts_nothing_behind_a_first_pair_that_is_not_whole(
    first: Pair, runner: Runner
) -> None:
    write_pairs(runner.folder / "all", [first, *PLAYED])
    found = tally(runner, "--sprt", "0", "10")
    assert found["sprt"]["pairs"] == [0] * 5
    assert pair_of_a(found)["pairs"] == [1, 1, 4, 0, 6]


def test_pair_that_was_played_twice(runner: Runner) -> None:
    write_pairs(runner.folder / "all", [Pair("B+R", "B+R", "A", "A")] * 2)
    found = tally(runner)
    assert pair_of_a(found)["pairs_in_interval"] == 1
    assert found["same"] == [["1_a_b", "2_a_b"], ["1_b_a", "2_b_a"]]


def test_nothing_was_played(runner: Runner) -> None:
    write_pairs(runner.folder / "all", [Pair(None, None)] * 2)
    found = tally(runner, "--sprt", "0", "10")
    (pair,) = found["pairs"]
    assert (pair["score"], pair["interval"], found["same"]) == (None, None, [])
    assert pair["pairs"] == found["sprt"]["pairs"] == [0] * 5


# With two openings, of three moves and of one, the seeds 1 and 3 have the first. Moves of an
# opening aren't counted among the 21.
@pytest.mark.parametrize(
    "openings, pairs, same, clusters",
    [
        pytest.param(
            ["C3 D4 E5", "C3"],
            [
                Pair("B+R", "B+R", "A24", "B23"),
                Pair("B+R", "B+R", "A24", "C22"),
                Pair("B+R", "B+R", "A24", "B23"),
                Pair("B+R", "B+R", "D21", "C22"),
            ],
            [["1_a_b", "3_a_b"], ["2_b_a", "4_b_a"]],
            2,
            id="two openings",
        ),
        pytest.param(
            ["C3", "C3"],
            [Pair("B+R", "B+R", "A22", "B21")] * 2,
            [["1_a_b", "2_a_b"]],
            1,
            id="the same opening twice",
        ),
    ],
)
def test_moves_behind_the_opening_are_compared(
    openings: List[str], pairs: List[Pair], same: List[List[str]], clusters: int, runner: Runner
) -> None:
    write_pairs(runner.folder / "all", pairs, lines=[f"opening {moves}" for moves in openings])
    found = tally(runner)
    assert found["same"] == same
    assert pair_of_a(found)["pairs_in_interval"] == clusters
