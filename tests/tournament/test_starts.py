"""Where engines start, and engines that passed their trial and don't start later."""
from __future__ import annotations

import re
from pathlib import Path
from typing import Callable, List

import pytest

from .runner import TWO, Runner, engines

TINY = ["--seeds", "1", "--", "--size", "2"]
GAMES = ("1_one_two", "1_two_one")
PLAYS = "exec gtp_engine"
OTHERS = (
    "tournament: to play the games of the others: tournament list all"
    " | grep -vE '_(bad)(_|$)' | xargs -n 1 -P 1 tournament game all"
)


# ---- where engines start


def test_engines_start_where_the_plan_was_made(runner: Runner) -> None:
    (runner.folder / "deep").mkdir()
    runner.script("engine", PLAYS)
    words = [*engines(one="./engine", two="./engine"), *TINY]
    runner.tournament("plan", "deep/all", *words)
    assert runner.shell("cd deep && tournament game all 1_one_two")[::2] == (0, "")
    place = runner.folder / "deep/all"
    assert runner.shell('cd / && tournament play "$1"', place)[::2] == (0, "")
    assert sorted(runner.games("deep/all")) == [*GAMES]


@pytest.fixture
def moved(runner: Runner) -> Path:
    """Returns a plan whose engines start in a directory that isn't there."""
    (runner.folder / "deep").mkdir()
    runner.script("engine", PLAYS)
    words = [*engines(one="./engine", two="./engine"), *TINY]
    runner.tournament("plan", "deep/all", *words)
    plan = runner.folder / "deep/all/plan"
    plan.write_text(plan.read_text().replace(f'"{runner.folder}"', '"/no/where"'))
    return plan


def test_no_game_begins_where_that_directory_is_gone(moved: Path, runner: Runner) -> None:
    line = (
        "there is no directory /no/where, in which the engines start:"
        " make it, or name another one in deep/all/plan\n"
    )
    assert runner.tournament("play", "deep/all")[::2] == (69, f"tournament: {line}")
    done = runner.tournament("game", "deep/all", "1_one_two")
    assert done[::2] == (69, f"tournament: 1_one_two: {line}")


def test_plan_of_earlier_scripts_names_no_directory(moved: Path, runner: Runner) -> None:
    text = "engine one ./engine\nengine two ./engine\noption --size\noption 2\nseeds 1\nlimit 600\n"
    moved.write_text(text)
    assert runner.tournament("game", "deep/all", "1_one_two").status == 0
    done = runner.shell("cd deep; tournament game all 1_two_one")
    line = "tournament: two can't be started here: ./engine: No such file or directory\n"
    assert done.status == 69 and line in done.errors


# ---- engines whose program is gone later


@pytest.mark.parametrize(
    "command, spoil, why",
    [
        pytest.param("./engine", Path.unlink, "No such file or directory", id="named by a path"),
        pytest.param("my-engine", Path.unlink, "No such file or directory", id="found in PATH"),
        pytest.param(
            "./engine", lambda place: place.chmod(0o644), "Permission denied", id="not executable"
        ),
    ],
)
def test_program_that_is_gone(
    command: str, spoil: Callable[[Path], object], why: str, runner: Runner
) -> None:
    (runner.folder / "more").mkdir()
    runner.environment["PATH"] = f"{runner.folder}/more:{runner.environment['PATH']}"
    name = command if "/" in command else f"more/{command}"
    program = runner.script(name, PLAYS)
    runner.tournament("play", "all", *engines(good="gtp_engine", bad=f"{command} %s"), *TINY)
    spoil(program)
    line = f"tournament: bad can't be started here: {command}: {why}\ntournament: "
    done = runner.tournament("play", "all", "--seeds", "2")
    assert done == (69, "2 of 4 games have a result\n", f"{line}no game is begun here\n")
    done = runner.tournament("game", "all", "2_bad_good")
    assert done == (69, "", f"{line}2_bad_good: no game is begun here\n")
    assert runner.files("all/logs") == {}
    runner.script(name, PLAYS)
    assert runner.tournament("play", "all")[::2] == (0, "")


# ---- engines that answer nothing in a game

# an engine that isn't started, except at its first start and at the others that $1 doesn't divide
FAILS = """\
echo >> starts
count=$(wc -l < starts)
[ $count = 1 ] || ((count % $1)) || exit 3
exec gtp_engine
"""


def test_ten_games_in_a_row_end_the_run(runner: Runner) -> None:
    runner.script("engine", FAILS)
    words = [*TWO, *engines(bad="./engine 1"), "--jobs", "1", "--seeds", "4"]
    done = runner.tournament("play", "all", *words, "--", "--size", "2", "--restarts", "0")
    assert done.status == 69
    assert done.output.splitlines()[-1] == "6 of 24 games have a result"
    *games, line, advice = done.errors.splitlines()
    ended = r"it ended (at '1 boardsize 2'|before anything was asked): exit status 3"
    matches = [re.fullmatch(f".*: no result: bad wasn't started: {ended}", line) for line in games]
    assert len(matches) == 10 and all(matches)
    in_a_row = "bad wasn't started in 10 games in a row: no other game is begun here"
    assert (line, advice) == (f"tournament: {in_a_row}", OTHERS)
    done = runner.tournament("play", "all", "--jobs", "1")
    trial = "tournament: bad can't be started here: it ended at 'boardsize 2': exit status 3"
    lines = [trial, "tournament: no game is begun here", OTHERS]
    assert (done.status, done.errors.splitlines()) == (69, lines)
    runner.script("engine", PLAYS)
    assert runner.tournament("play", "all")[::2] == (0, "")


def test_ten_games_that_are_not_in_a_row(runner: Runner) -> None:
    runner.script("engine", FAILS)
    words = [*engines(one="gtp_engine", bad="./engine 2"), "--jobs=1", "--seeds=11", "--direct"]
    done = runner.tournament("play", "all", *words, "--", "--size", "2", "--restarts", "0")
    assert done.status == 1
    assert done.output.splitlines()[-1] == "11 of 22 games have a result"
    assert done.errors.count("no result: bad wasn't started") == 11


def test_engine_is_tried_again_before_the_next_game(runner: Runner) -> None:
    runner.script("engine", "exit 3")
    words = engines(one="gtp_engine", bad="./engine")
    runner.tournament("plan", "all", *words, "--seeds", "2", "--", "--size", "2")
    runner.pass_trials()
    done = runner.tournament("game", "all", "1_one_bad")
    line = "tournament: 1_one_bad: no result: bad wasn't started: it ended "
    assert done.status == 1 and done.errors.startswith(line)
    done = runner.tournament("game", "all", "2_one_bad")
    trial = "tournament: bad can't be started here: it ended at 'boardsize 2': exit status 3\n"
    line = "tournament: 2_one_bad: no game is begun here\n"
    assert done[::2] == (69, trial + line)


def direct(runner: Runner) -> List[str]:
    """Plays with an engine that has the seed in the name of its program, and passed its trial.

    Returns what standard error has.
    """
    words = [*engines(one="gtp_engine", two="./two%s"), "--direct", *TINY]
    runner.tournament("plan", "all", *words)
    runner.pass_trials()
    done = runner.tournament("play", "all")
    assert done.status == 1
    return sorted(done.errors.splitlines())


def not_started(why: str) -> List[str]:
    """Returns what is reported where the engine two isn't started."""
    return [f"tournament: {game}: no result: two wasn't started: {why}" for game in GAMES]


def test_direct_engine_that_is_not_there(runner: Runner) -> None:
    assert direct(runner) == not_started('not started: no such file: "./two1"')
    assert runner.games() == {}


def test_direct_engine_that_ends_at_once(runner: Runner) -> None:
    runner.script("two1", "exit 3")
    lines = [re.sub("(started: ).*", r"\1..", line) for line in direct(runner)]
    assert (lines, runner.games()) == (not_started(".."), {})


def test_direct_engine_that_answers_once_is_abandoned(runner: Runner) -> None:
    runner.script("two1", "read -r number _; printf '=%s\\n\\n' $number")
    assert direct(runner) == []
    lines = {text.splitlines()[0] for text in runner.games().values()}
    assert lines == {
        "game 1: abandoned white moves 0 restarts 0 2",
        "game 1: abandoned black moves 0 restarts 2 0",
    }
