"""Random conversations: the engine writes what a plain, slow reference in Python writes.

The seed gives the conversations. `--count 10000 --seed 5` is a longer run, `-k mutated` runs a
single kind, and `--programs FOLDER` takes another gtp_engine. The kinds are those of
tests/references/engine/conversations.py.
"""
from pathlib import Path

import pytest

from tests.references.engine.conversations import KINDS

from .trials import PIECES, Trial, number_of, positional_refusals

COUNT = 100  # conversations of a kind
# How many plays only positional ko refuses, for each conversation of these kinds, so that the rule
# is tested often enough: 1,000 in all.
FEWEST_REFUSALS = {"returns": 7, "handicap": 3}


def trials(request: pytest.FixtureRequest, program: Path, kind: str) -> list[Trial]:
    """Returns the conversations of this kind."""
    count = number_of(kind, request.config.getoption("--count") or COUNT)
    seed = request.config.getoption("--seed")
    return [Trial(program, kind, f"{seed} {kind} {number}") for number in range(count)]


@pytest.mark.parametrize("kind", [*KINDS, PIECES])
def test_engine_writes_what_the_reference_writes(
    request: pytest.FixtureRequest, gtp_engine: Path, kind: str
) -> None:
    all_trials = trials(request, gtp_engine, kind)
    with positional_refusals() as refusals:
        for trial in all_trials:
            if not trial.agrees():
                pytest.fail(trial.difference(), pytrace=False)
    if len(all_trials) >= COUNT:
        assert len(refusals) >= FEWEST_REFUSALS.get(kind, 0) * len(all_trials)
