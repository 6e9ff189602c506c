"""Tests of two engines, and a tournament of many, whose true differences are known."""
from __future__ import annotations

import json
from functools import partial

import pytest

from . import simulation
from .inside import module
from .runner import Runner
from .simulation import Differences, Kind, error_rates, highest_rate

sprt = module("stats.sprt")


@pytest.mark.parametrize(
    "differences, kind, count",
    [
        ((0, 100), simulation.independent, 400),
        ((0, 100), simulation.by_colour, 400),
        ((-50, 50), simulation.drawish, 400),
    ],
)
def test_a_test_errs_in_at_most_6_percent(differences: Differences, kind: Kind, count: int) -> None:
    rates = error_rates(kind, differences, count)
    assert max(rate.errors for rate in rates) <= highest_rate(count)


@pytest.mark.parametrize("alpha, beta", [(0.01, 0.01), (0.1, 0.02)])
@pytest.mark.parametrize("kind", [simulation.independent, simulation.drawish, simulation.by_seed])
def test_a_test_errs_about_as_often_as_asked(
    kind: Kind, alpha: float, beta: float, request: pytest.FixtureRequest
) -> None:
    """Simulates 200 tests of each difference, or as many as --count asks for."""
    count = request.config.getoption("--count") or 200
    bounds = sprt.TestRequest((0, 100), ("a", "b"), alpha, beta).bounds()
    rates = error_rates(kind, (0, 100), count, partial(simulation.scores.decision, bounds=bounds))
    for rate, error in zip(rates, (alpha, beta)):
        assert rate.errors <= highest_rate(count, 1.2 * error)


@pytest.mark.parametrize(
    "differences, kind, count",
    [
        ((0, 3), simulation.hardly_decided, 40),
        ((5, 25), simulation.by_colour_alone, 100),
        ((150, 170), simulation.hardly_lost, 60),
        ((300, 400), simulation.by_seed, 250),
        ((400, 450), simulation.by_colour, 150),
        ((700, 800), simulation.independent, 50),
    ],
)
def test_a_test_errs_as_seldom_where_the_first_ratio_alone_errs_more_often(
    differences: Differences, kind: Kind, count: int
) -> None:
    rates = error_rates(kind, differences, count)
    assert max(rate.errors for rate in rates) <= highest_rate(count)
    by_ratio = error_rates(kind, differences, count, simulation.by_ratio)
    assert max(rate.errors for rate in by_ratio) > highest_rate(count)


def test_tally_of_twelve_engines(runner: Runner) -> None:
    elos = simulation.strengths(12, 40)
    simulation.write_tournament(runner.folder / "all", elos, 40)
    found = json.loads(runner.tally("all", "--json").output)
    assert found["games"] == found["results"] == 66 * 80
    assert len(found["pairs"]) == 66
    assert simulation.count_inside(found, elos) >= 60  # of intervals that hold it in 95 %
    wanted = range(11 * 40, -1, -40)
    places = [abs(elos[engine["name"]] - elo) for engine, elo in zip(found["engines"], wanted)]
    assert max(places) <= 40  # no engine is two places off
