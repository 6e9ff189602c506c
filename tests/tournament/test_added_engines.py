"""Engines that a command adds: they are tried, and a plan has them only if each can be started."""
from __future__ import annotations

from typing import Dict, Tuple

import pytest

from .runner import TWO, Runner, engines

THREE = [*TWO, *engines(three="./engine")]
ONE_BY_ONE = ["--seeds", "1", "--jobs", "1", "--", "--size", "2"]
NO_FILE = (
    "tournament: {} can't be started here: ./engine: No such file or directory\n"
    "tournament: no game is begun here\n"
)
ADVICE = (
    "give the command again with what can be started,"
    " or make the plan by tournament plan, which tries no engine\n"
)


def state(runner: Runner) -> Tuple[str, Dict[str, str]]:
    """Returns the plan and the results."""
    return (runner.folder / "all/plan").read_text(), runner.games()


def test_no_plan_is_made_with_an_engine_that_cannot_be_started(runner: Runner) -> None:
    good = engines(one="gtp_engine")
    words = [*good, *engines(bad="./engine"), *ONE_BY_ONE]
    line = f"tournament: all/plan is not made: {ADVICE}"
    assert runner.tournament("play", "all", *words) == (69, "", NO_FILE.format("bad") + line)
    assert not (runner.folder / "all/plan").exists()
    words = [*good, *engines(bad="gtp_engine --ko positional"), *ONE_BY_ONE]
    assert runner.tournament("play", "all", *words)[::2] == (0, "")


def test_engine_that_cannot_be_started_is_not_added(runner: Runner) -> None:
    runner.tournament("play", "all", *TWO, *ONE_BY_ONE)
    before = state(runner)
    line = f"tournament: all/plan stays as it was: {ADVICE}"
    done = runner.tournament("play", "all", *THREE, *ONE_BY_ONE)
    assert done == (69, "", NO_FILE.format("three") + line)
    assert state(runner) == before
    assert runner.tournament("play", "all", "--seeds", "2")[::2] == (0, "")
    runner.script("engine", "echo >> starts; exec gtp_engine")
    done = runner.tournament("play", "all", *THREE, "--seeds", "2", *ONE_BY_ONE[2:])
    assert (done[::2], len(runner.games())) == ((0, ""), 12)
    assert len((runner.folder / "starts").read_text()) == 1 + 8


def test_engine_that_cannot_do_something_is_added(runner: Runner) -> None:
    runner.script("engine", "exec gtp_engine --fault stop:1")
    options = [*ONE_BY_ONE, "--restarts", "0"]
    runner.tournament("plan", "all", *TWO, *options)
    done = runner.tournament("play", "all", *THREE, *options)
    assert done.errors == "tournament: three: it ended at 'genmove b': exit status 4\n"
    assert len(runner.games()) == 6


def test_plan_tries_no_engine(runner: Runner) -> None:
    words = [*THREE, "--seeds", "1", "--", "--size", "2"]
    assert runner.tournament("plan", "all", *words) == (0, "", "")
    others = "tournament list all | grep -vE '_(three)(_|$)' | xargs -n 1 -P 1 tournament game all"
    line = f"tournament: to play the games of the others: {others}\n"
    done = runner.tournament("play", "all", "--jobs", "1")
    assert done[::2] == (69, NO_FILE.format("three") + line)
    assert runner.shell(others)[::2] == (0, "")
    assert sorted(runner.games()) == ["1_one_two", "1_two_one"]
    assert runner.tournament("play", "all")[::2] == (69, NO_FILE.format("three"))


def test_games_of_the_others_where_names_have_other_characters(runner: Runner) -> None:
    # names that are parts of others, and a directory with a space
    names = ("a.b+c", "axb+c", "a.b+cd", "0a.b+c", "a.bbc")
    commands = dict.fromkeys(names, "gtp_engine")
    words = engines(**{**commands, "a.b+c": "./engine"})
    runner.tournament("plan", "the night", *words, "--seeds", "1", "--", "--size", "1")
    done = runner.tournament("play", "the night", "--jobs", "3")
    others = (
        "tournament list 'the night' | grep -vE '_(a\\.b\\+c)(_|$)'"
        " | xargs -n 1 -P 3 tournament game 'the night'"
    )
    line = f"tournament: to play the games of the others: {others}"
    assert done.errors.splitlines()[-1] == line
    assert runner.shell(others)[::2] == (0, "")
    assert len(runner.games("the night")) == 4 * 3


@pytest.fixture
def trying(runner: Runner) -> Runner:
    """Returns a runner with a plan, and an engine three that waits for the file go."""
    runner.tournament("plan", "all", *TWO, *ONE_BY_ONE[:2], *ONE_BY_ONE[4:])
    runner.script("engine", "until [ -e go ]; do sleep 0.1; done; exec gtp_engine")
    return runner


def test_run_is_stopped_while_a_new_engine_is_tried(trying: Runner) -> None:
    before = state(trying)
    run = trying.start("tournament", "play", "all", *THREE, *ONE_BY_ONE)
    trying.wait_for("engine")
    run.terminate()
    line = "tournament: stopped: 0 of 6 games have a result; the same command goes on\n"
    assert trying.finish(run)[::2] == (143, line)
    assert state(trying) == before


def test_plan_is_changed_while_a_new_engine_is_tried(trying: Runner) -> None:
    plan = state(trying)[0].replace("seeds = 1", "seeds = 5")
    run = trying.start("tournament", "play", "all", *THREE, *ONE_BY_ONE)
    trying.wait_for("engine")
    trying.tournament("plan", "all", "--seeds", "5")
    (trying.folder / "go").touch()
    line = "all/plan was changed by another run at the same time: give the command again\n"
    assert trying.finish(run)[::2] == (2, f"tournament: {line}")
    assert state(trying) == (plan, {})
