"""%slot in a command is a number that no other game has then, and --pin gives it processors."""
from __future__ import annotations

import os
from typing import List, Set

import pytest

from .runner import Runner, engines

BOARD = ["--limit=600", "--", "--size", "3", "--komi", "1"]
# It writes down the seed and the slot, and waits until there is a game in each of two slots.
WAITS = """\
grep Cpus_allowed_list /proc/self/status >> processors.$2
echo "$1" >> slot.$2
until [ -e slot.0 ] && [ -e slot.1 ]; do sleep 0.1; done
exec gtp_engine"""


def plan(runner: Runner, script: str, *words: str) -> None:
    """Makes a plan of an engine with this script, which passes for tried."""
    runner.script("engine", script)
    both = engines(one="./engine %s %slot", two="gtp_engine")
    assert runner.tournament("plan", "all", *both, *words, *BOARD).status == 0
    runner.pass_trials()


@pytest.mark.parametrize("direct", [[], ["--direct"]], ids=["with between", "direct"])
def test_games_at_once_have_unlike_slots(direct: List[str], runner: Runner) -> None:
    plan(runner, WAITS, "--seeds=1", *direct)
    assert runner.tournament("play", "all", "--jobs=2").status == 0
    seeds = [(runner.folder / f"slot.{slot}").read_text() for slot in (0, 1)]
    assert seeds == ["1\n", "1\n"]


def test_slots_are_used_again(runner: Runner) -> None:
    (runner.folder / "slot.1").touch()
    plan(runner, WAITS, "--seeds=3")
    assert runner.tournament("play", "all", "--jobs=1").status == 0
    assert (runner.folder / "slot.0").read_text().split() == ["1", "1", "2", "2", "3", "3"]
    assert (runner.folder / "slot.1").read_text() == ""


def test_slot_is_no_seed(runner: Runner) -> None:
    commands = {"one": "gtp_engine", "two": "gtp_engine --seed 1%slot"}
    done = runner.tournament("plan", "all", *engines(**commands), "--seeds=2", *BOARD)
    assert "one and two have no %s, the seed, in their commands" in done.errors


def listed(text: str) -> Set[int]:
    """Returns the processors of a list such as 0-2,5."""
    ends = [part.split("-") for part in text.split(",")]
    return {number for end in ends for number in range(int(end[0]), int(end[-1]) + 1)}


def used(runner: Runner, slot: int) -> Set[int]:
    """Returns the processors that the engine may use in a game with this slot."""
    (line,) = (runner.folder / f"processors.{slot}").read_text().splitlines()
    return listed(line.split()[1])


def test_games_with_all_processors(runner: Runner) -> None:
    plan(runner, WAITS, "--seeds=1")
    assert runner.tournament("play", "all", "--jobs=2").status == 0
    assert used(runner, 0) == used(runner, 1) == os.sched_getaffinity(0)


def test_pinned_games(runner: Runner) -> None:
    plan(runner, WAITS, "--seeds=1")
    assert runner.tournament("play", "all", "--jobs=2", "--pin").status == 0
    shares, all_of = [used(runner, slot) for slot in (0, 1)], os.sched_getaffinity(0)
    assert shares[0] | shares[1] == all_of
    if len(all_of) > 1:
        assert not shares[0] & shares[1]
        assert abs(len(shares[0]) - len(shares[1])) == len(all_of) % 2


def test_more_pinned_games_than_processors(runner: Runner) -> None:
    plan(runner, WAITS, "--seeds=1")
    one = min(os.sched_getaffinity(0))
    words = ["taskset", "-c", one, "tournament", "play", "all", "--jobs=2", "--pin"]
    assert runner.run(*words).status == 0
    assert used(runner, 0) == used(runner, 1) == {one}
