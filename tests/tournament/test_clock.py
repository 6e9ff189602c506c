"""The clocks of a tournament, by moves that were worked out by hand."""
from __future__ import annotations

from typing import FrozenSet, List, Optional

import pytest

from .inside import module

clock = module("relay.clock")
ALL = frozenset(["time_settings", "kgs-time_settings", "kata-time_settings"])
PLAIN = frozenset(["time_settings"])


@pytest.mark.parametrize(
    "text, moves, left",
    [
        pytest.param("absolute 10", [4, 5], "1 0", id="absolute: what was used is gone"),
        pytest.param("absolute 10", [4, 6], "0 0", id="absolute: the last second may be used"),
        pytest.param("absolute 10", [4, 6.5], None, id="absolute: out of time"),
        pytest.param("absolute 6", [0.1] * 50, "1 0", id="absolute: a tenth is a tenth"),
        pytest.param("fischer 10 5", [8, 6], "6 0", id="fischer: 10-8+5-6+5"),
        pytest.param(
            "fischer 10 5", [10.5], None, id="fischer: the increment comes after the move"
        ),
        pytest.param("canadian 10 6 3", [9, 3], "4 2", id="canadian: two seconds of the period"),
        pytest.param(
            "canadian 10 6 3", [11, 2, 3], "6 3", id="canadian: three moves, a new period"
        ),
        pytest.param("canadian 10 6 3", [11, 2, 4], None, id="canadian: 1+2+4 of 6 seconds"),
        pytest.param("canadian 0 6 1", [6, 6, 5], "6 1", id="canadian: a period for each move"),
        pytest.param("byoyomi 10 5 3", [8.5], "1 0", id="byoyomi: a second of the main time"),
        pytest.param("byoyomi 10 5 3", [9.5], "5 3", id="byoyomi: half a second of the main time"),
        pytest.param("byoyomi 10 5 3", [9, 5], "5 3", id="byoyomi: four seconds of a period"),
        pytest.param("byoyomi 10 5 3", [10, 5, 5], "5 3", id="byoyomi: whole periods aren't lost"),
        pytest.param("byoyomi 10 5 3", [10, 7], "5 2", id="byoyomi: a move into the second period"),
        pytest.param("byoyomi 10 5 3", [10, 7, 9], "5 1", id="byoyomi: and into the third"),
        pytest.param("byoyomi 10 5 3", [10, 7, 9, 5], "5 1", id="byoyomi: the last stays"),
        pytest.param("byoyomi 10 5 3", [10, 7, 9, 5.5], None, id="byoyomi: and is lost"),
        pytest.param(
            "byoyomi 10 5 3", [25], "5 1", id="byoyomi: main time and all periods at once"
        ),
    ],
)
def test_moves_are_charged(text: str, moves: List[float], left: Optional[str]) -> None:
    side = clock.read_clock(text)
    for seconds in moves:
        side.charge(seconds)
        side.end_move()
    assert side.is_out == (left is None)
    if left is not None:
        assert side.time_left(clock.PERIODS) == left


def test_engine_that_ended_pays_for_its_time_and_gets_no_increment() -> None:
    side = clock.read_clock("fischer 10 5")
    side.charge(4)  # and the engine ended
    assert side.time_left(clock.NOTHING) == "6 0"


@pytest.mark.parametrize(
    "text, seconds",
    [
        pytest.param("absolute 600", 600, id="absolute"),
        pytest.param("fischer 300 5", 345, id="fischer: nine increments before the tenth move"),
        pytest.param("canadian 600 300 4", 1500, id="canadian: three periods for ten moves"),
        pytest.param("byoyomi 600 30 5", 1020, id="byoyomi: ten periods, and four that are lost"),
    ],
)
def test_most_seconds_of_ten_moves(text: str, seconds: int) -> None:
    assert clock.read_clock(text).most_seconds(10) == seconds


@pytest.mark.parametrize(
    "text, known, command, told",
    [
        ("absolute 600", ALL, "time_settings 600 0 0", clock.NOTHING),
        ("canadian 600 300 25", ALL, "time_settings 600 300 25", clock.MOVES),
        ("byoyomi 600 30 5", ALL, "kgs-time_settings byoyomi 600 30 5", clock.PERIODS),
        ("byoyomi 600 30 5", PLAIN, "time_settings 600 30 1", clock.MOVES),
        ("byoyomi 0 0.5 5", PLAIN, "time_settings 0 1 1", clock.MOVES),
        ("fischer 300 5", ALL, "kata-time_settings fischer 300 5", clock.NOTHING),
        ("fischer 1000000 0.25", ALL, "kata-time_settings fischer 1000000 0.25", clock.NOTHING),
        ("fischer 300 5", PLAIN, "time_settings 300 0 0", clock.NOTHING),
        ("fischer 300 5", frozenset(), "", clock.NOTHING),
    ],
)
def test_engine_is_told_by_what_it_knows(
    text: str, known: FrozenSet[str], command: str, told: str
) -> None:
    assert clock.read_clock(text).settings(known) == (command, told)


def test_byoyomi_that_was_told_as_one_move_has_one_stone() -> None:
    side = clock.read_clock("byoyomi 0 30 5")
    assert side.time_left(clock.MOVES) == "30 1"
    assert side.time_left(clock.PERIODS) == "30 5"


@pytest.mark.parametrize(
    "text, message",
    [
        ("", "absolute MAIN, "),
        ("sudden 5", "byoyomi MAIN PERIOD COUNT or fischer MAIN INCREMENT"),
        ("absolute", "absolute MAIN, such as absolute 600"),
        ("canadian 5 5", "canadian MAIN PERIOD MOVES, such as canadian 600 300 25"),
        ("fischer 5 x", "fischer MAIN INCREMENT, such as fischer 300 5"),
        ("byoyomi 5 5 1.5", "byoyomi MAIN PERIOD COUNT, such as byoyomi 600 30 5"),
        ("absolute 1e3", "absolute MAIN, such"),
        ("absolute -1", "absolute MAIN, such"),
        ("absolute 0.0001", "absolute MAIN, such"),
        ("absolute 1000001", "seconds from 0 to 1000000"),
        ("absolute 0", "not all of them 0"),
        ("fischer 0 5", "a main time above 0"),
        ("byoyomi 5 0 3", "a period above 0 seconds"),
        ("byoyomi 5 5 0", "from 1 to 1000"),
    ],
)
def test_text_that_is_no_clock(text: str, message: str) -> None:
    with pytest.raises(clock.BadClock, match=message):
        clock.read_clock(text)
