"""Engines that hang, in a match and in a tournament, as docs/matches.md says."""
from __future__ import annotations

import re
from subprocess import DEVNULL, TimeoutExpired

import pytest

from .misbehaving import STUBBORN
from .runner import Runner, engines

START = 4  # seconds in which a slow machine starts an engine
MATCH = ["twogtp", "--white", "gtp_engine", "--size", "9", "--restarts", "0", "--black"]


def test_timeout_with_k_ends_an_engine_that_ignores_term(runner: Runner) -> None:
    stubborn = runner.script("stubborn", STUBBORN)
    done = runner.run(*MATCH, f"timeout -k 1 1 {stubborn}")
    assert done == (1, "game 1: abandoned black moves 0 restarts 0 0\n", "")


def test_without_k_it_is_waited_for(runner: Runner) -> None:
    text = "trap 'touch asked' TERM\nwhile :; do sleep 0.1; done"
    process = runner.start(*MATCH, f"timeout {START} {runner.script('ignores', text)}")
    runner.wait_until((runner.folder / "asked").exists)
    with pytest.raises(TimeoutExpired):
        process.wait(2)


def test_timeout_of_twogtp_leaves_an_engine_that_ignores_term(runner: Runner) -> None:
    stubborn = runner.script("stubborn", STUBBORN)
    # which an engine that is left could hold open
    runner.run("timeout", START, *MATCH, stubborn, stdout=DEVNULL, stderr=DEVNULL)
    assert runner.named("stubborn") != []


# An engine that neither answers `quit` nor ends.
DEAF = """\
while IFS= read -r line && [ "$line" != quit ]; do echo "$line"; done | gtp_engine
sleep 1000"""
LINE = "game 1: W+6.5 moves 2 restarts 0 0\n"
LIMIT = 8  # seconds in which a slow machine plays two moves


def test_result_is_there_before_quit_is_answered(runner: Runner) -> None:
    deaf = runner.script("deaf", DEAF)
    options = ["--white", "gtp_engine", "--size", "1"]
    done = runner.run("twogtp", *options, "--black", f"timeout -k 1 {LIMIT} {deaf}")
    assert done == (0, LINE, "")


def test_result_is_there_before_quit_is_answered_in_a_tournament(runner: Runner) -> None:
    both = engines(one=str(runner.script("deaf", DEAF)), two="gtp_engine")
    options = ["--seeds", "1", "--jobs", "2", "--limit", LIMIT, "--", "--size", "1"]
    status, _, errors = runner.tournament("play", "all", *both, *options)
    why = f"it doesn't answer 'quit' in 2 seconds: each of its games waits for that, up to {LIMIT}"
    assert (status, errors) == (0, f"tournament: one: {why} seconds\n")
    assert set(runner.games().values()) == {f"{LINE}pass pass\n"}


def without_parts(text: str) -> str:
    """Returns a text with S for seconds, which are more on a busy machine."""
    return re.sub(r"\d+\.\d+ seconds", "S seconds", text)


def test_limit_of_a_game(runner: Runner) -> None:
    stubborn = runner.script("stubborn", STUBBORN)
    both = engines(one=str(stubborn), two=f"timeout -k 5 300 {stubborn}")
    runner.tournament("plan", "all", *both, "--seeds", "2")
    runner.pass_trials()
    done = runner.tournament("play", "all", "--limit", "6", "--jobs", "4")
    assert (done.status, done.output) == (1, "0 of 4 games have a result\n")
    assert runner.processes() == []
    end = "was waited for, S seconds at '1 boardsize 19'"
    reasons = {
        game: f"not over in 6 seconds; {game.split('_')[1]} {end}"
        for game in ("1_one_two", "1_two_one", "2_one_two", "2_two_one")
    }
    assert sorted(without_parts(done.errors).splitlines()) == [
        f"tournament: {game}: no result: {why}" for game, why in reasons.items()
    ]
    for game, why in reasons.items():
        log = without_parts((runner.folder / "all/logs" / game).read_text())
        assert log.splitlines()[-1] == f"tournament: {why}"
    status, output, _ = runner.tally("all")
    assert status == 1
    tally = without_parts(output).splitlines()
    assert tally[-5:] == ["no result: 4", *(f"  {game}: {why}" for game, why in reasons.items())]
