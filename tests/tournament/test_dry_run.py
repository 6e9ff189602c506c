"""What a run would play: `--dry-run`, which writes and plays nothing."""
from __future__ import annotations

import pytest

from .runner import TWO, Runner, engines

TINY = ["--", "--size", "5", "--komi", "0.5"]


@pytest.mark.parametrize("command", ["play", "plan"])
def test_nothing_is_written(command: str, runner: Runner) -> None:
    done = runner.tournament(command, "all", *TWO, "--seeds", "2", "--dry-run", *TINY)
    names = [f"{seed}_{sides}" for seed in (1, 2) for sides in ("one_two", "two_one")]
    by_hand = (
        f"cd {runner.folder} && {runner.environment['TWOGTP']} --why --record --size 5 --komi 0.5"
        " --black 'gtp_engine --policy random --seed 1'"
        " --white 'gtp_engine --policy random --seed 101'"
    )
    assert (done.status, done.output.splitlines(), done.errors) == (0, [*names, by_hand], "")
    assert list(runner.folder.iterdir()) == []


def test_command_plays_the_game(runner: Runner) -> None:
    both = engines(one="gtp_engine --policy 'random' --seed %s", two="gtp_engine")
    words = ["all", *both, "--seeds", "1", *TINY]
    line = runner.tournament("play", "--dry-run", *words).output.splitlines()[-1]
    result = runner.shell(line).output
    assert runner.tournament("play", *words).status == 0
    assert runner.games()["1_one_two"] == result


def test_games_with_a_result_are_left_out(runner: Runner) -> None:
    bad = engines(one="gtp_engine", two="gtp_engine --fault stop:1")
    options = ["--seeds", "2", "--", "--size", "5", "--restarts", "0"]
    runner.tournament("plan", "all", *bad, *options)
    runner.pass_trials()
    runner.tournament("game", "all", "1_two_one")
    done = runner.tournament("play", "all", "--dry-run", "--task", "1/2")
    assert done.output.splitlines()[:-1] == ["1_one_two", "2_one_two"]
    done = runner.tournament("play", "all", "--dry-run", "--task", "2/2")
    assert done.output.splitlines()[:-1] == ["2_two_one"]
    done = runner.tournament("play", "all", "--dry-run", "--task", "2/2", "--again")
    assert done.output.splitlines()[:-1] == ["1_two_one", "2_two_one"]
    assert list(runner.games()) == ["1_two_one"]


def test_word_with_a_space_is_named(runner: Runner) -> None:
    both = engines(one="gtp_engine --book 'a b'", two="gtp_engine")
    done = runner.tournament("play", "all", *both, "--seeds", "1", "--dry-run", *TINY)
    report = "tournament: the command of one has a word with a space, which twogtp alone can't"
    assert done.status == 0
    assert done.errors == f"{report} give to an engine: write a script that starts it\n"
