"""Trials that are stopped, killed, or waited for by other processes."""
from __future__ import annotations

import itertools
import signal
import subprocess
from typing import List, Tuple

import pytest

from .runner import Runner, engines, kill

# an engine that ignores TERM and INT, never answers, and doesn't end; nor does what it starts
STUBBORN = """\
trap '' TERM INT
while :; do sleep 0.5; done &
while :; do sleep 0.5; done
"""
PROCESSES = ("tournament", "trial one", "asks one")  # the run, and both processes of a trial
KILLED = [names for count in (1, 2) for names in itertools.permutations(PROCESSES, count)]


@pytest.fixture
def trial(runner: Runner) -> "subprocess.Popen[str]":
    """Returns a run that tries a stubborn engine, which a timeout of its own has started."""
    engine = runner.script("stubborn", STUBBORN)
    words = engines(one=f"timeout 300 {engine}", two="gtp_engine")
    unseen = {"stdout": subprocess.DEVNULL, "stderr": runner.write("errors", "").open("w")}
    run = runner.start("tournament", "play", "all", *words, **unseen)
    runner.wait_for(*PROCESSES)
    runner.wait_until(lambda: len(runner.named("stubborn")) == 2)
    return run


@pytest.mark.parametrize("killed", KILLED, ids=" and ".join)
def test_nothing_is_left_of_a_trial_that_is_killed(
    killed: Tuple[str, ...], trial: "subprocess.Popen[str]", runner: Runner
) -> None:
    numbers = [pid for name in killed for pid in runner.named(name)]
    assert len(numbers) == len(killed)
    engine = runner.named("stubborn") + runner.named("timeout")
    for number in (signal.SIGSTOP, signal.SIGKILL):  # at one moment
        for pid in numbers:
            kill(pid, number)
    runner.wait_until(
        lambda: not set(engine).intersection(process.pid for process in runner.processes())
    )
    trial.terminate()
    runner.finish(trial)
    assert runner.is_idle()


def test_stop_ends_a_trial(trial: "subprocess.Popen[str]", runner: Runner) -> None:
    trial.terminate()
    assert runner.finish(trial).status == 143
    line = "tournament: stopped: 0 of 20 games have a result; the same command goes on\n"
    assert (runner.folder / "errors").read_text() == line
    assert runner.is_idle()


@pytest.mark.parametrize("name", ["trial bad", "asks bad"])
def test_trial_that_is_killed_says_nothing_of_the_engine(name: str, runner: Runner) -> None:
    runner.script("engine", "[ -e tried ] || { touch tried; exec sleep 1000; }; exec gtp_engine")
    words = [*engines(bad="./engine", two="gtp_engine"), "--seeds", "1", "--", "--size", "2"]
    run = runner.start("tournament", "play", "all", *words)
    runner.wait_for("sleep", name)
    kill(runner.named(name)[0])
    done = runner.finish(run)
    assert done[::2] == (0, "tournament: bad: its trial was ended\n")
    assert len(runner.games()) == 2
    assert runner.is_idle()


# ---- processes that wait for a trial of another one

WAITS = """\
echo start >> heard
until [ -e go ]; do sleep 0.1; done
exit 3
"""
TRIED = "tournament: bad is tried: its start and each answer may take 60 seconds, and its move 600"
WAITED = "tournament: another process tries engines on this machine, and this one waits for it"
REPORT = "tournament: bad can't be started here: it ended at 'boardsize 2': exit status 3"
NO_GAME = "tournament: no game is begun here"


@pytest.fixture
def waiting(runner: Runner) -> Runner:
    """Returns a runner with a plan whose engine bad waits for the file go, and isn't started."""
    runner.script("engine", WAITS)
    words = [*engines(bad="./engine", two="gtp_engine"), "--seeds", "2", "--", "--size", "2"]
    runner.tournament("plan", "all", *words)
    return runner


def errors_of(runner: Runner, commands: List[List[str]]) -> Tuple[List[int], List[str]]:
    """Runs these commands at once, lets the trial end once all others wait for it.

    Returns their statuses, and what they wrote on standard error.
    """
    place = runner.folder / "errors"
    with open(place, "a") as errors:
        runs = [runner.start("tournament", *words, stderr=errors) for words in commands]
    lines = [TRIED, *[WAITED] * (len(commands) - 1)]  # each is written after ten seconds
    runner.wait_until(lambda: sorted(place.read_text().splitlines()) == sorted(lines))
    (runner.folder / "go").touch()
    statuses = [runner.finish(run).status for run in runs]
    return statuses, place.read_text().splitlines()[len(commands) :]


def starts(runner: Runner) -> int:
    """Returns how often the engine was started."""
    return (runner.folder / "heard").read_text().count("start")


def test_processes_that_wait_for_a_trial_take_its_outcome(waiting: Runner) -> None:
    games = waiting.tournament("list", "all").output.splitlines()
    statuses, lines = errors_of(waiting, [["game", "all", game] for game in games])
    of_games = [f"tournament: {game}: no game is begun here" for game in games]
    assert (statuses, sorted(lines)) == ([69] * 4, sorted([*[REPORT] * 4, *of_games]))
    assert starts(waiting) == 1
    # later ones try it again
    assert waiting.tournament("game", "all", "1_bad_two").status == 69
    assert starts(waiting) == 2
    assert waiting.tournament("play", "all")[::2] == (69, f"{REPORT}\n{NO_GAME}\n")
    assert starts(waiting) == 3
    waiting.script("engine", "exec gtp_engine")
    assert waiting.tournament("game", "all", "1_bad_two")[::2] == (0, "")


def test_second_run_with_again_takes_the_outcome_of_the_first(waiting: Runner) -> None:
    waiting.write("all/games/1_bad_two", "game 1: abandoned black moves 0 restarts 0 0\n\n")
    statuses, lines = errors_of(waiting, 2 * [["play", "all", "--again"]])
    assert (statuses, sorted(lines)) == ([69] * 2, sorted(2 * [REPORT, NO_GAME]))
    assert starts(waiting) == 1
