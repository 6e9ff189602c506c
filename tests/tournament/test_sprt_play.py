"""A run that a sequential test ends: tournament play --sprt."""
from __future__ import annotations

from typing import List

import pytest

from .runner import Done, Runner, engines

# With odd seeds two resigns at its first move; with even ones Black does, who is one or two. From
# the seed $2 on two waits for a file `go`, and with the seed $3 it ends at once.
ONE = """\
[ $(($1 % 2)) = 0 ] && book=resign || book=,
exec gtp_engine --policy book --book "$book"
"""
TWO = """\
[ "$1" != "$3" ] || exit 7
if [ "$1" -ge "$2" ]; then
    until [ -e go ]; do sleep 0.05; done
fi
[ $(($1 % 2)) = 0 ] && book=resign || book=resign,resign
exec gtp_engine --policy book --book "$book"
"""
# So one wins pairs with odd seeds, and the others are 1-1: 10 of each are the first that are
# enough. By R both ratios of 0 and 100 Elo are 8.06 and 4.94 then.
LINE = "one - two: 100 Elo accepted, not 0 Elo, at the pair of seed {}: 20 pairs, log likelihood "
LINE += "ratio 8.06, exact 4.94, bounds -2.94 and 2.94"


def plan(runner: Runner, waits: int, fails: int = 0) -> None:
    """Plans a tournament in which two waits from a seed on, and ends at once with another one."""
    one, two = runner.script("one", ONE), runner.script("two", TWO)
    both = engines(one=f"{one} %s", two=f"{two} %s {waits} {fails}")
    options = ["--start-limit", "600", "--seeds", "60", "--", "--size", "2"]
    assert runner.tournament("plan", "all", *both, *options).status == 0
    runner.pass_trials()


def play(runner: Runner, *words: object) -> Done:
    """Returns what comes of a run with a test."""
    return runner.tournament("play", "all", "--sprt", "0", "100", *words)


def last_lines(done: Done) -> List[str]:
    """Returns the last two lines of a run's output."""
    return done.output.splitlines()[-2:]


@pytest.mark.parametrize("jobs", [1, 4])
def test_run_ends_with_the_test(jobs: int, runner: Runner) -> None:
    # more games than there are jobs wait when the test is over, so they are ended
    plan(runner, waits=21)
    done = play(runner, "--jobs", jobs)
    line = LINE.format(20)
    assert (done.status, done.errors) == (0, "")
    assert last_lines(done) == ["40 of 120 games have a result", line]
    assert runner.is_idle()
    assert runner.files("all/logs") == {} and runner.files("all/running") == {}
    assert runner.tally("all", "--sprt", "0", "100") == (0, f"{line}\n", "")
    # it is over, so nothing is played, and no engine is tried
    (runner.folder / "two").unlink()
    assert play(runner) == (0, f"40 of 120 games have a result\n{line}\n", "")


def test_pair_whose_game_has_no_result_is_left_out(runner: Runner) -> None:
    plan(runner, waits=22, fails=3)
    done = play(runner, "--jobs", "2")
    left_out = "; left out, without a result after their try: 3_one_two, 3_two_one"
    assert done.status == 0
    assert last_lines(done) == ["40 of 120 games have a result", LINE.format(21) + left_out]
    assert done.errors.count("no result: two wasn't started") == 2
    tallied = runner.tally("all", "--sprt", "0", "100").output
    assert tallied == f"{LINE.format(21)}{left_out}\n"
    # results that these games get later don't reopen it
    runner.script("two", TWO.replace("exit 7", ":"))
    for game in ("3_one_two", "3_two_one"):
        assert runner.tournament("game", "all", game).status == 0
    assert runner.tally("all", "--sprt", "0", "100").output == tallied
    assert last_lines(play(runner)) == ["42 of 120 games have a result", tallied[:-1]]
    # nor does a test of other differences leave them out
    other = runner.tally("all", "--sprt", "0", "99").output
    assert ", at the pair of seed 20: 20 pairs, " in other and "left out" not in other


def test_two_runs_in_one_folder(runner: Runner) -> None:
    plan(runner, waits=21)
    words = ["tournament", "play", "all", "--sprt", "0", "100", "--jobs", "2"]
    for done in map(runner.finish, [runner.start(*words), runner.start(*words)]):
        assert (done.status, done.errors) == (0, "")
        assert last_lines(done)[-1] == LINE.format(20)
    assert runner.is_idle()


@pytest.mark.parametrize("fails", [0, 3])
def test_two_tasks(fails: int, runner: Runner) -> None:
    """Each has the games with one colour, and waits for those of the other one."""
    plan(runner, waits=22 if fails else 21, fails=fails)
    words = ["tournament", "play", "all", "--sprt", "0", "100", "--jobs", "2", "--task"]
    said, tallied = LINE.format(20), f"{LINE.format(20)}\n"
    if fails:
        why = "without a result after their try: 3_"
        said = LINE.format(21) + "; left out, as far as task {} knows, " + why
        tallied = f"{LINE.format(21)}; left out, {why}one_two, 3_two_one\n"
    tasks = ("1/2", "2/2")
    runs = [runner.start(*words, task) for task in tasks]
    for task, done in zip(tasks, map(runner.finish, runs)):
        assert (done.status, last_lines(done)[-1].startswith(said.format(task))) == (0, True)
    assert runner.is_idle()
    assert runner.tally("all", "--sprt", "0", "100").output == tallied


def test_one_task_after_the_other(runner: Runner) -> None:
    plan(runner, waits=61)
    done = play(runner, "--task", "1/2")
    assert (done.status, last_lines(done)[0]) == (0, "60 of 60 games of task 1/2 have a result")
    assert last_lines(done)[1].startswith("one - two: go on: 0 pairs (")
    done = play(runner, "--task", "2/2", "--jobs", "1")
    counted = "20 of 60 games of task 2/2 have a result, 40 are missing"
    assert (done.status, last_lines(done)) == (0, [counted, LINE.format(20)])


def test_test_that_needs_more_pairs(runner: Runner) -> None:
    plan(runner, waits=61)
    done = play(runner, "--between", "two", "one", "--alpha", "0.001", "--beta", "0.001")
    assert last_lines(done)[-1].startswith("two - one: 0 Elo accepted, not 100 Elo, at the pair")
    done = runner.tournament("play", "all", "--sprt", "129.999", "130")
    assert (done.status, last_lines(done)[0]) == (0, "120 of 120 games have a result")
    assert last_lines(done)[1].startswith("one - two: go on: 60 pairs, ")


def test_damaged_result_is_played_again(runner: Runner) -> None:
    plan(runner, waits=21)
    play(runner)
    runner.write("all/games/5_one_two", "game 1: B+R mo")
    status = runner.tally("all", "--sprt", "0", "100").status
    done = play(runner)
    assert (status, done.status, last_lines(done)[-1]) == (4, 0, LINE.format(20))


@pytest.mark.parametrize(
    "words, mistake",
    [
        ("--alpha 0", "--alpha needs a number from 0.001 to 0.25, such as --alpha 0.05, and not"),
        ("--beta .26", "--beta needs a number from 0.001 to 0.25, such as --beta 0.05, and not"),
    ],
)
def test_usage_error(words: str, mistake: str, runner: Runner) -> None:
    plan(runner, waits=1)
    done = play(runner, *words.split())
    assert (done.status, done.output, runner.games()) == (2, "", {})
    assert mistake in done.errors
