"""Random matches: twogtp does what a plain reference of the controller says.

In most of them an engine misbehaves, at random moves and starts, in one of some 240 ways, and any
261 matches in a row have each way once. The output, the status, the standard error and what the
engines were sent have to be those of the reference, which plays each match with quick and slow
engines. All have to come out alike: tests/references/controller/random_matches.py says what is left
out, since it is a question of time.

The seed and the number give the match. `--count 2000 --seed 5` is a longer run, and `-k "[17]"`
plays a single match.
"""
from __future__ import annotations

import pytest

from tests.references.controller import matches
from tests.references.controller.controller import MOST_UNANSWERED
from tests.references.controller.matches import PATIENT, TIMINGS, Expected, Match
from tests.references.controller.random_matches import EARLY, random_match

from .playing import Player, command_line
from .reported import has_too_many_lines

COUNT = len(EARLY)  # so many in a row have each way to misbehave once


def pytest_generate_tests(metafunc: pytest.Metafunc) -> None:
    if "number" in metafunc.fixturenames:
        count = metafunc.config.getoption("--count") or COUNT
        metafunc.parametrize("number", range(1, count + 1))


def reference_result(match: Match) -> Expected:
    """Returns the result of a match by the reference, which may not be a question of time."""
    results = {timing: matches.play(match, timing) for timing in TIMINGS}
    wanted = results[PATIENT]
    for timing, result in results.items():
        owes_otherwise = timing.most < MOST_UNANSWERED
        assert wanted.allows(result.in_this_timing(), any_errors=owes_otherwise), timing
    return wanted


def test_twogtp_plays_the_match(
    request: pytest.FixtureRequest, player: Player, number: int
) -> None:
    match = random_match(request.config.getoption("--seed"), number)
    print(command_line(match))
    wanted = reference_result(match)
    result = player.play(match)
    assert (result.status, result.output) == (wanted.status, wanted.output)
    assert result.logs == wanted.logs
    assert wanted.allows(result), (result.errors, wanted.errors)
    # without the reference: --why has a line for each start at most, and three retakes for a move
    assert not has_too_many_lines(result.output, result.errors, match.most_moves)
