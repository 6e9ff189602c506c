"""The options of a sequential test, of the tally and of a run that ends with it."""
from __future__ import annotations

import re
from typing import Sequence

from ..config.arguments import Arguments
from ..model import Plan
from ..output import Mistake
from ..stats.sprt import ERROR, MOST, TestRequest

LEAST_ERROR, MOST_ERROR = 0.001, 0.25


def asked_of(arguments: Arguments, plan: Plan) -> TestRequest | None:
    """Returns the test that the options ask for, if they do."""
    tested = arguments.last_of_two("--sprt", differences)
    engines = arguments.last_of_two("--between", lambda _, names: names)
    playing = plan.games().sides[::2]  # each two that play each other
    example = f"--between {' '.join(playing[0])}"
    if engines and not tested:
        raise Mistake(f"--between is for a test: write --sprt 0 10 --between {' '.join(engines)}")
    if tested and not engines and len(playing) > 1:
        raise Mistake(
            f"--sprt is of two engines, and the plan has {len(plan.engines)}: name two that play "
            f"each other, such as {example}"
        )
    if engines and not any(set(engines) == set(sides) for sides in playing):
        raise Mistake(
            f"--between needs two engines that play each other, such as {example}, and not "
            f"'{' '.join(engines)}'"
        )
    alpha, beta = (arguments.last(name, error_rate) for name in ("--alpha", "--beta"))
    if not tested:
        if alpha or beta:
            raise Mistake(f"{'--alpha' if alpha else '--beta'} is for a test: write --sprt 0 10")
        return None
    return TestRequest(tested, engines or playing[0], alpha or ERROR, beta or ERROR)


def error_rate(name: str, value: str) -> float:
    """Returns how often a test may err."""
    rate = float(value) if re.fullmatch(r"0?\.[0-9]{1,6}", value) else 0.0
    if not LEAST_ERROR <= rate <= MOST_ERROR:
        raise Mistake(
            f"{name} needs a number from {LEAST_ERROR} to {MOST_ERROR}, such as {name} {ERROR}, "
            f"and not '{value}'"
        )
    return rate


def differences(name: str, values: Sequence[str]) -> tuple[float, float]:
    """Returns the two differences in Elo of an option, the lower one first."""
    if not all(re.fullmatch(r"[+-]?[0-9]{1,4}(\.[0-9]{1,3})?", value) for value in values):
        given = " ".join(values)
        raise Mistake(
            f"{name} needs two differences in Elo, such as {name} 0 10, and not '{given}'"
        )
    low, high = map(float, values)
    if max(abs(low), abs(high)) > MOST:
        raise Mistake(
            f"{name} needs differences from {-MOST} to {MOST} Elo, such as {name} 0 10: beyond "
            "that it wasn't tested"
        )
    if low == high:
        raise Mistake(f"{name} needs two different differences, such as {name} 0 10")
    if low > high:
        raise Mistake(f"{name} needs the lower difference first: write {name} {high:g} {low:g}")
    return low, high
