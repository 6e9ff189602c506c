"""The ratings of a tournament: planted ratings come back, and intervals hold the truth."""
from __future__ import annotations

import json
import math
from typing import Any, Dict

import pytest

from .drawn import KINDS, held, planted, ratings
from .inside import module
from .runner import Runner
from .test_pairs import PLAYED
from .written import ENDED, write_pairs, write_plan, write_results

# ---- the fit


@pytest.mark.parametrize(
    "elos",
    [
        pytest.param({"a": 35.0, "b": -35.0}, id="two engines"),
        pytest.param({"a": 120.0, "b": 10.0, "c": -130.0}, id="three engines"),
        pytest.param({"a": 1200.0, "b": 0.0, "c": -1200.0}, id="far apart"),
        pytest.param({str(n): 45.0 * n - 427.5 for n in range(20)}, id="twenty engines"),
    ],
)
def test_planted_ratings_come_back(elos: Dict[str, float]) -> None:
    fit = ratings.Fit(list(elos), planted(elos))
    for name, elo in elos.items():
        assert fit.rating(name).elo == pytest.approx(elo, abs=0.01)


def test_advantage_of_black_comes_back() -> None:
    elos = {"a": 80.0, "b": 0.0, "c": -80.0}
    found = ratings.advantage(list(elos), planted(elos, black=40.0))
    assert found.elo == pytest.approx(40.0, abs=0.01)


def test_engine_that_won_all_has_a_rating() -> None:
    fit = ratings.Fit(["a", "b"], {("a", "b"): {ratings.WON_TWICE: 10}})
    # eleven pairs, of which half a pair was lost: 10.5 of 11
    assert fit.rating("a").elo == pytest.approx(200 * math.log10(10.5 / 0.5), abs=0.01)
    assert 0.97 < fit.better("a", "b") < 1


@pytest.mark.parametrize("kind", KINDS.values(), ids=KINDS)
def test_intervals_hold_the_truth(kind: Any, request: pytest.FixtureRequest) -> None:
    """Draws a hundred tournaments, or those that --count asks for."""
    shares = held(kind, request.config.getoption("--count") or 100)
    assert 0.925 <= sum(shares) / len(shares) <= 0.985


# ---- what is observed


def test_pairs_that_repeat_each_other_are_one_observation(runner: Runner) -> None:
    write_pairs(runner.folder / "all", PLAYED)
    plan = module("config.plan_file").read_plan(str(runner.folder / "all"))
    pairs = module("stats.summary").Counts(plan, str(runner.folder / "all")).pairs
    (pairing,) = pairs.pairings()
    won, lost, even, white, drawn, half = (
        ((True, first), (False, second))  # the points of Black: a in the first game, then b
        for first, second in ((1, 0), (0, 1), (1, 1), (0, 0), (0.5, 0.5), (0.5, 1))
    )
    # the seeds 1, 3, 10 and 13, then 7 and 12, and those alone: 9 and 11, 2, 4, 5, 6
    assert pairs.observed(pairing) == {
        (*won, *even, *won, *won): 1,
        (*half, *won): 1,
        won: 2,
        lost: 1,
        even: 1,
        white: 1,
        drawn: 1,
    }
    # a won the first game of seed 8, and the other one has no result
    assert pairs.observed_alone(pairing) == {((True, 1),): 1}


# ---- in the tally


def write_verdicts(runner: Runner, names: str, verdicts: Dict[str, str]) -> None:
    """Writes a tournament of these engines with one seed."""
    write_plan(runner.folder / "all", names, 1)
    results = {game: f"{verdict} {ENDED}" for game, verdict in verdicts.items()}
    write_results(runner.folder / "all", results)


def test_engines_without_games_between_them_are_rated_apart(runner: Runner) -> None:
    won = {"1_a_b": "B+R", "1_b_a": "W+R", "1_d_e": "B+R", "1_e_d": "W+R"}
    # of a pair that isn't whole nothing joins b and c
    write_verdicts(runner, "abcde", {**won, "1_c_b": "B+R"})
    found = json.loads(runner.tally("all", "--json").output)["ratings"]
    assert [(rating["engine"], rating["group"]) for rating in found] == [
        *(("a", 0), ("b", 0)),
        *(("d", 1), ("e", 1)),
    ]
    # beforehand there is a pair, half won and half lost: a won 1.5 of 2, and is 400 log10(3) better
    half = 200 * math.log10(3)
    assert [rating["elo"] for rating in found] == pytest.approx([half, -half] * 2)
    lines = runner.tally("all").output.splitlines()
    at = lines.index("no games join these with those above:")
    assert [line.split()[0] for line in lines[at - 2 : at + 3]] == ["a", "b", "no", "d", "e"]


@pytest.mark.parametrize(
    "names, verdicts",
    [
        pytest.param("ab", {"1_a_b": "B+R", "1_b_a": "W+R"}, id="two engines"),
        pytest.param("abc", {}, id="nothing was played"),
        pytest.param("abc", {"1_a_b": "unfit black", "1_b_a": "W+R"}, id="a pair that is out"),
    ],
)
def test_there_are_no_ratings(names: str, verdicts: Dict[str, str], runner: Runner) -> None:
    write_verdicts(runner, names, verdicts)
    assert json.loads(runner.tally("all", "--json").output)["ratings"] == []
    assert "better than the next" not in runner.tally("all").output


def test_worth_of_black_where_no_pair_tells_of_it(runner: Runner) -> None:
    by_black = dict.fromkeys(("1_a_b", "1_a_c", "1_b_c"), "B+R")
    by_white = dict.fromkeys(("1_b_a", "1_c_a", "1_c_b"), "W+R")
    write_verdicts(runner, "abc", {**by_black, **by_white})  # who is better won with both colours
    assert json.loads(runner.tally("all", "--json").output)["black"] is None
    assert "Black's advantage" not in runner.tally("all").output


def test_too_many_engines(runner: Runner) -> None:
    names = [f"e{number}" for number in range(201)]
    write_plan(runner.folder / "all", names, 1)
    output = runner.tally("all").output
    assert "\nno ratings: 201 engines are too many\n" in output
