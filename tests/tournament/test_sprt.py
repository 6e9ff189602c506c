"""The sequential test of two engines: tally --sprt."""
from __future__ import annotations

import json
import math
from typing import Dict, List, Optional, Sequence, Tuple

import pytest

from .inside import module
from .runner import Runner
from .written import ENDED, EVEN, LOST, WON, Pair, write_pairs, write_plan, write_results

Counts = Tuple[int, int, int, int, int]
Differences = Tuple[float, float]
MANY: Counts = (10, 20, 40, 30, 20)
# 50 pairs: 30 won, 15 even and 5 lost
SOME = [WON, WON, EVEN, WON, LOST, WON, EVEN, WON, EVEN, WON] * 5
OTHERWISE = [WON if pair is LOST else LOST if pair is WON else EVEN for pair in SOME]


scores = module("stats.scores")
STATUSES = {1: 0, 0: 3, None: 4}  # of a tally, by what is accepted


def sprt(differences: Differences) -> List[str]:
    """Returns the options of a test of these differences."""
    return ["--sprt", *(f"{elo:g}" for elo in differences)]


# ---- the ratios


# By R 4.2: w <- n + .001; m <- weighted.mean(x, w); v <- sum(w * x^2) / sum(w) - m^2; s <- 1 / (1 +
# 10^(-e/400)); sum(n) * diff(s) * (2*m - sum(s)) / (2*v), where n are the counts, x is (0:4)/4, and
# e are both differences.
@pytest.mark.parametrize(
    "counts, differences, ratio",
    [
        (MANY, (0, 10), 1.12810740788075),
        (MANY, (-5, 5), 1.27510894570018),
        (MANY, (50, 100), -4.20832308826143),
        ((0, 0, 0, 0, 1), (50, 100), 14.4527626583823),
        ((0, 0, 10, 0, 0), (0, 10), -16.567565100831),
    ],
    ids=str,
)
def test_ratio(counts: Counts, differences: Differences, ratio: float) -> None:
    assert scores.ratio(counts, *differences) == pytest.approx(ratio, rel=1e-9)


# The first three are by Newton's method to 40 digits. The others have shares in a closed form:
# counts divided by numbers at equal distances. So 10 20 40 30 20 by 2 to 6 is 15 20 30 18 10 of 93,
# with the mean 29/62. They are from the numbers 2 to 6 and 6 to 2, 2 to 6 and all 6, and 4 to 8 and
# 8 to 4; their differences are written to thousandths, which changes these ratios by less than
# 0.00002.
@pytest.mark.parametrize(
    "counts, differences, ratio, off",
    [
        (MANY, (0, 10), 1.08100845643366, 1e-9),
        ((5, 0, 15, 0, 30), (0, 100), 7.6715589789193, 1e-9),
        ((0, 0, 0, 0, 1), (50, 100), 0.113646888966675, 1e-9),
        (MANY, (-22.450, 114.358), -0.733108582354296, 2e-5),
        ((0, 0, 30, 0, 10), (63.854, 88.728), 0.574735974727766, 2e-5),
        ((1, 2, 3, 10, 30), (260.024, 372.888), -0.103926215701959, 2e-5),
    ],
    ids=str,
)
def test_exact_ratio(counts: Counts, differences: Differences, ratio: float, off: float) -> None:
    assert scores.exact_ratio(counts, *differences) == pytest.approx(ratio, abs=off)


# ---- what is accepted


# Decisions are near ln(19) = 2.9444390. By the same two ways the ratio and the exact one are as
# the comments say.
@pytest.mark.parametrize(
    "counts, differences, status",
    [
        ((5, 15, 14, 6, 14), (-50, 10), 4),  # 2.94430 and 3.05523
        ((2, 14, 1, 17, 14), (-20, 10), 4),  # 2.94457 and 2.64970
        ((17, 20, 18, 15, 8), (-50, 10), 4),  # -2.94439 and -2.83361
        ((17, 5, 19, 2, 5), (-10, 20), 4),  # -2.94457 and -2.43008
        ((0, 20, 0, 0, 20), (-40, 10), 0),  # 2.98669 and 3.57226
        ((0, 2, 14, 24, 0), (50, 100), 0),  # 4.00472 and 2.98682
        ((0, 12, 12, 0, 25), (-20, 0), 4),  # 2.78656 and 2.90019
        ((0, 16, 0, 27, 9), (10, 40), 4),  # 3.06084 and 2.83679
        ((12, 10, 0, 22, 1), (10, 60), 3),  # -2.97211 and -3.42370
        ((1, 26, 6, 14, 0), (30, 50), 3),  # -3.31875 and -3.00562
        ((20, 1, 20, 11, 29), (40, 140), 4),  # -2.68386 and -2.97657
        ((6, 27, 0, 17, 0), (-20, 10), 4),  # -3.04149 and -2.92816
        # both are beyond with fewer than 16 pairs (9.06 and 3.70)
        ((0, 0, 5, 5, 5), (0, 100), 4),
        ((0, 0, 6, 5, 5), (0, 100), 0),
        ((5, 5, 6, 0, 0), (0, 100), 3),
        # or fewer than 10 of them unlike most (4.96 and 4.68)
        ((0, 0, 30, 5, 4), (0, 50), 4),
        ((0, 0, 30, 5, 5), (0, 50), 0),
        ((0, 0, 0, 1, 46), (0, 100), 4),
        ((12, 0, 24, 0, 12), (0, 10), 4),
    ],
    ids=str,
)
def test_decision(counts: Counts, differences: Differences, status: int) -> None:
    assert STATUSES[scores.decision(counts, *differences)] == status


# By R the first pair from the 16th on, of which 10 are unlike most, at which both ratios have
# passed the same bound: ln((1 - beta) / alpha) or ln(beta / (1 - alpha)). Only their last digits
# decide, 2.96497 at 74 for example, and 2.95151 at 69, where ln(19) is 2.94444.
@pytest.mark.parametrize("seeds", [200, 150], ids=["200 pairs", "150 pairs"])
@pytest.mark.parametrize(
    "pairs, words, seed, counts, status",
    [
        (SOME, "0 20", 74, [7, 0, 22, 0, 45], 0),
        (OTHERWISE, "0 20", 69, [41, 0, 21, 0, 7], 3),
        (SOME, "0 20 --alpha 0.01", 118, [12, 0, 35, 0, 71], 0),
        (OTHERWISE, "0 20 --alpha 0.01", 70, [42, 0, 21, 0, 7], 3),
        (SOME, "0 20 --beta=.01", 78, [8, 0, 23, 0, 47], 0),
        (OTHERWISE, "0 20 --beta=.01", 107, [64, 0, 32, 0, 11], 3),
        (SOME, "0 20 --alpha 0.2", 40, [4, 0, 12, 0, 24], 0),
        (OTHERWISE, "0 20 --beta 0.2", 38, [23, 0, 11, 0, 4], 3),
        (SOME, "0 100", 25, [3, 0, 7, 0, 15], 0),
    ],
)
def test_test_is_over_at_the_first_pair_that_decides(
    pairs: List[Pair],
    words: str,
    seed: int,
    counts: List[int],
    status: int,
    seeds: int,
    runner: Runner,
) -> None:
    # what is played later doesn't reopen it
    write_pairs(runner.folder / "all", (pairs * 4)[:seeds])
    done = runner.tally("all", "--json", "--sprt", *words.split())
    found = json.loads(done.output)["sprt"]
    assert (found["seed"], found["pairs"], done.status) == (seed, counts, status)


def test_later_pairs_do_not_reopen_a_test(runner: Runner) -> None:
    write_pairs(runner.folder / "all", [*SOME[:25], *[LOST] * 100])
    line = "a - b: 100 Elo accepted, not 0 Elo, at the pair of seed 25: 25 pairs, "
    ratios = "log likelihood ratio 4.86, exact 3.50, bounds -2.94 and 2.94\n"
    assert runner.tally("all", "--sprt", "0", "100") == (0, line + ratios, "")


def test_pair_whose_game_has_no_result_after_its_try_is_left_out(runner: Runner) -> None:
    pairs = [*SOME[:3], Pair("B+R", None), *SOME[3:24], Pair(None, None), SOME[24]]
    write_pairs(runner.folder / "all", pairs)
    (runner.folder / "all/logs").mkdir()
    failed = "twogtp: a line\ntournament: not over in 600 seconds\n"
    runner.write("all/logs/4_b_a", failed)
    # a log of a game that is played, or that was stopped, doesn't say why there is no result
    runner.write("all/logs/26_a_b", "twogtp: a line\n")
    done = runner.tally("all", "--sprt", "0", "100")
    line = "a - b: go on: 24 pairs (9 unlike most; at least 10 are needed), "
    left_out = "; left out, without a result after their try: 4_b_a\n"
    assert done.status == 4
    assert done.output.startswith(line) and done.output.endswith(left_out)
    runner.write("all/logs/26_a_b", failed)
    found = json.loads(runner.tally("all", "--sprt", "0", "100", "--json").output)["sprt"]
    assert (found["seed"], found["pairs"]) == (27, [3, 0, 7, 0, 15])
    assert found["left_out"] == ["4_b_a", "26_a_b"]


@pytest.mark.parametrize(
    "pairs, differences, line, status",
    [
        pytest.param(
            SOME,
            (0, 100),
            "100 Elo accepted, not 0 Elo, at the pair of seed 25: 25 pairs",
            0,
            id="won",
        ),
        pytest.param(
            OTHERWISE,
            (0, 100),
            "0 Elo accepted, not 100 Elo, at the pair of seed 25: 25 pairs",
            3,
            id="lost",
        ),
        pytest.param([EVEN, WON, LOST, EVEN] * 13, (0, 10), "go on: 52 pairs", 4, id="open"),
        pytest.param(
            SOME[:15], (0, 100), "go on: 15 pairs (at least 16 are needed)", 4, id="too few"
        ),
        pytest.param(
            [EVEN] * 20 + [WON] * 9,
            (0, 50),
            "go on: 29 pairs (9 unlike most; at least 10 are needed)",
            4,
            id="too few that differ",
        ),
        pytest.param(
            [*SOME[:20], Pair("B+R", None), *SOME],
            (0, 100),
            "go on: 20 pairs (8 unlike most; at least 10 are needed)",
            4,
            id="up to the first pair that isn't whole",
        ),
        pytest.param(
            SOME,
            (-800, 800),
            "800 Elo accepted, not -800 Elo, at the pair of seed 25: 25 pairs",
            0,
            id="the greatest",
        ),
        pytest.param(
            [Pair(None, None)] * 2,
            (0, 10),
            "go on: 0 pairs (at least 16 are needed)",
            4,
            id="nothing was played",
        ),
    ],
)
def test_what_is_said(
    pairs: Sequence[Pair], differences: Differences, line: str, status: int, runner: Runner
) -> None:
    write_pairs(runner.folder / "all", pairs)
    done = runner.tally("all", *sprt(differences))
    assert (done.status, done.output.partition(", log")[0]) == (status, f"a - b: {line}")
    assert done.errors == ""


def test_line_and_json(runner: Runner) -> None:
    write_pairs(runner.folder / "all", SOME)
    # by R and by Newton's method, as above, of 5 0 15 0 30
    line = "a - b: go on: 50 pairs, log likelihood ratio 1.55, exact 1.00, bounds -2.94 and 2.94\n"
    assert runner.tally("all", "--sprt", "0", "10").output == line
    found = json.loads(runner.tally("all", "--sprt", "0", "10", "--json").output)["sprt"]
    ratios = found.pop("ratio"), found.pop("exact")
    assert ratios == pytest.approx((1.55231, 1.00280), abs=1e-5)
    assert found == {
        "engines": ["a", "b"],
        "elo0": 0,
        "elo1": 10,
        "accepted": "go on",
        "pairs": [5, 0, 15, 0, 30],
        "bounds": pytest.approx([-math.log(19), math.log(19)]),
        "seed": None,
        "left_out": [],
    }


CRASHED = Pair("abandoned white", "abandoned black")  # b, in both games
REFUSED = Pair("unfit white", "B+R")


@pytest.mark.parametrize(
    "words, counts",
    [
        pytest.param([], [5, 0, 15, 0, 30], id="b loses"),
        pytest.param(["--abandoned", "loses"], [5, 0, 15, 0, 30], id="b loses as asked"),
        pytest.param(["--abandoned", "out"], [5, 0, 15, 0, 0], id="out"),
        # 1/2 of a pair that b refused and b won, and of the crashes a half for each
        pytest.param(["--abandoned", "half"], [5, 4, 45, 0, 0], id="half"),
    ],
)
def test_pairs_with_sides_that_failed(words: List[str], counts: List[int], runner: Runner) -> None:
    pairs = [CRASHED if pair is WON else pair for pair in SOME]
    write_pairs(runner.folder / "all", [*pairs, *[REFUSED] * 4])
    # a difference too small for a decision
    found = json.loads(runner.tally("all", "--sprt", "0", "0.1", "--json", *words).output)
    assert found["sprt"]["pairs"] == counts


# ---- the engines that are tested


def write_three_engines(runner: Runner) -> None:
    """Writes a tournament in which a and b are as strong, and c wins against a and loses to b."""
    verdicts: Dict[str, Optional[str]] = {}
    for one, other, pairs in (("a", "b", [EVEN] * 50), ("a", "c", OTHERWISE), ("b", "c", SOME)):
        for seed, pair in enumerate(pairs, 1):
            verdicts[f"{seed}_{one}_{other}"] = pair.first
            verdicts[f"{seed}_{other}_{one}"] = pair.second
    write_plan(runner.folder / "three", "abc", 50)
    results = {game: f"{verdict} {ENDED}" for game, verdict in verdicts.items()}
    write_results(runner.folder / "three", results)


@pytest.mark.parametrize(
    "words, line, status",
    [
        ("three --sprt 0 100 --between b c", "b - c: 100 Elo accepted", 0),
        ("three --sprt -100 0 --between c b", "c - b: -100 Elo accepted", 3),
        ("three --sprt -100 0 --between a c", "a - c: -100 Elo accepted", 3),
        ("three --sprt 0 100 --between c a", "c - a: 100 Elo accepted", 0),
        (
            "three --sprt 0 100 --between a b",
            "a - b: go on: 50 pairs (0 unlike most; at least 10 are needed)",
            4,
        ),
        ("two --sprt 0 100 --between a b", "a - b: 100 Elo accepted", 0),
        ("two --sprt -100 0 --between b a", "b - a: -100 Elo accepted", 3),
    ],
)
def test_first_engine_is_the_one_that_is_so_much_stronger(
    words: str, line: str, status: int, shared_runner: Runner
) -> None:
    if not (shared_runner.folder / "three").exists():
        write_three_engines(shared_runner)
        write_pairs(shared_runner.folder / "two", SOME)
    done = shared_runner.tally(*words.split())
    assert (done.status, done.output.partition(",")[0], done.errors) == (status, line, "")
