"""The script for Slurm, without Slurm: the games of each task, and the time that it has left."""
from __future__ import annotations

from subprocess import Popen
from typing import Dict, List

import pytest

from .runner import SCRIPTS, SMALL, TWO, Done, Runner, engines

# A stand-in for squeue: of an array's own number it lists all tasks, and of a task's name that one,
# each in a column of its width.
SQUEUE = """\
if [ "$4" = --format ]; then
    echo "$(cat excluded)|$(cat comment)"
    exit
fi
echo "$*" >> asked
[ "{left}" != none ] || exit 1
printf '%-20s\\n' {left}
[[ $3 == *_* ]] || printf '%-20s\\n' {left}
"""
# A stand-in for scontrol: once a task is queued again, all processes of it get TERM.
SCONTROL = """\
[ ! -e again ] || kill $$
[ "$1" != show ] || exec tr , '\\n' <<< "$3"
echo "$*" >> given
case $3 in
    Comment=*) echo "${3#*=}" > comment ;;
    ExcNodeList=*) echo "${3#*=}" > excluded ;;
esac
[ "$1" != requeue ] || { touch again && kill $PPID; }
"""
NO_TIME = (
    "tournament: another game of 600 seconds doesn't fit into the time left;"
    " the same command goes on\n"
)
UNKNOWN_TIME = (
    "tournament.sbatch: squeue doesn't say how much time is left, so a game may be cut off\n"
)


def start(runner: Runner, number: int, *words: object, left: str) -> Popen[str]:
    """Starts a task of the script, which has so much time left."""
    (runner.folder / "tools").mkdir(exist_ok=True)
    runner.script("tools/squeue", SQUEUE.replace("{left}", left))
    variables = {
        "PATH": f"{runner.folder}/tools:{runner.environment['PATH']}",
        "SLURM_ARRAY_TASK_ID": str(number),
        "SLURM_ARRAY_JOB_ID": "77",
        "SLURM_JOB_ID": "77",
    }
    environment = {**runner.environment, **variables}
    return runner.start(SCRIPTS / "tournament.sbatch", *words, env=environment)


def task(runner: Runner, number: int, *words: object, left: str = "UNLIMITED") -> Done:
    """Returns what comes of a task of the script, which has so much time left."""
    return runner.finish(start(runner, number, *words, left=left))


def test_tasks_of_an_array(runner: Runner, small_results: Dict[str, str]) -> None:
    runner.tournament("plan", "all", *TWO, "--seeds", "4", *SMALL)
    for number, count in ((1, 3), (2, 3), (3, 2)):
        done = task(runner, number, "all", 3)
        last = f"{count} of {count} games of task {number}/3 have a result"
        assert (done[::2], done.output.splitlines()[-1]) == ((0, ""), last)
    assert runner.games() == small_results
    asked = (runner.folder / "asked").read_text().splitlines()
    assert asked == [f"--noheader --jobs 77_{number} --Format TimeLeft" for number in (1, 2, 3)]
    # a task again plays what is missing of its games
    line = "3 of 3 games of task 2/3 have a result\n"
    assert task(runner, 2, "all", 3) == (0, line, "")
    (runner.folder / "all/games/1_two_one").unlink()
    done = task(runner, 2, "all", 3)
    assert (done.status, len(done.output.splitlines())) == (0, 2)
    assert runner.games() == small_results
    line = "0 of 0 games of task 9/100 have a result\n"
    assert task(runner, 9, "all", 100) == (0, line, "")
    # options of a run follow; a test counts what all tasks have played
    done = task(runner, 9, "all", 100, "--sprt", "0", "10")
    assert (done.status, done.output.startswith(f"{line}one - two: go on: 4 pairs (")) == (0, True)


@pytest.mark.parametrize("words", [[], ["all"], ["all", "3", "4"], ["all", "0"]], ids=" ".join)
def test_usage_error(words: List[str], runner: Runner) -> None:
    runner.tournament("plan", "all", *TWO)
    assert task(runner, 1, *words).status == 2
    assert runner.games() == {}


@pytest.mark.parametrize(
    "left, count, report",
    [
        ("9:59", 0, NO_TIME),
        ("10:05", 0, NO_TIME),
        ("610", 0, NO_TIME),
        ("630", 1, ""),
        ("0:10:20", 1, ""),
        ("1-00:00:00", 1, ""),
        ("UNLIMITED", 1, ""),
        ("none", 1, UNKNOWN_TIME),
    ],
)
def test_no_game_begins_that_does_not_fit(
    left: str, count: int, report: str, runner: Runner
) -> None:
    runner.tournament("plan", "all", *TWO, "--seeds", "4", "--", "--size", "2")
    done = task(runner, 8, "all", 8, left=left)
    missing = "" if count else ", 1 are missing"
    last = f"{count} of 1 games of task 8/8 have a result{missing}"
    assert (done.status, done.output.splitlines()[-1], done.errors) == (1 - count, last, report)
    assert len(runner.games()) == count


def test_games_begin_as_long_as_they_fit(runner: Runner) -> None:
    runner.script("slow", "sleep 6; exec gtp_engine")
    words = engines(one="./slow", two="gtp_engine")
    runner.tournament("plan", "all", *words, "--limit", "20", "--", "--size", "1")
    runner.pass_trials()
    # ten seconds are kept, so a game has to begin in the first five
    done = runner.tournament("play", "all", "--task=1/2", "--jobs=1", "--time-left=35")
    last = "1 of 10 games of task 1/2 have a result, 9 are missing"
    assert (done.status, done.output.splitlines()[-1]) == (1, last)


def test_task_that_is_submitted_twice(runner: Runner) -> None:
    runner.tournament("plan", "all", *engines(one="sleep 1000", two="cat"), "--seeds", "1")
    runner.pass_trials()
    run = runner.start("tournament", "play", "all", "--task", "1/2")
    runner.wait_for("sleep")
    line = "0 of 1 games of task 1/2 have a result, 1 are missing"
    report = "tournament: games that another process plays: 1\n"
    assert runner.tournament("play", "all", "--task", "1/2") == (0, f"{line}\n", report)
    report = "tournament: 1_one_two: another process plays it\n"
    assert runner.tournament("game", "all", "1_one_two") == (0, "", report)
    run.terminate()
    report = f"tournament: stopped: {line}; the same command goes on\n"
    assert runner.finish(run)[::2] == (143, report)
    assert runner.is_idle()


def test_task_to_which_alone_a_signal_is_sent(runner: Runner) -> None:
    runner.tournament("plan", "all", *engines(one="sleep 1000", two="cat"), "--seeds", "1")
    runner.pass_trials()
    run = start(runner, 1, "all", 1, left="UNLIMITED")
    runner.wait_for("sleep")
    run.terminate()
    assert runner.finish(run).status == 143
    assert runner.is_idle()


def on_node(runner: Runner, node: str, nodes: str = "na nb nc nd") -> Done:
    """Returns what comes of a task on a node without an engine, which is one of these nodes."""
    if not (runner.folder / "tools").exists():
        runner.tournament("plan", "all", *engines(one="./gone", two="gtp_engine"), "--seeds", "4")
        (runner.folder / "tools").mkdir()
        runner.script("tools/scontrol", SCONTROL)
        runner.script("tools/sinfo", f"printf '%s\\n' {nodes}")
        runner.write("given", "")
    (runner.folder / "again").unlink(missing_ok=True)
    runner.environment.update(SLURMD_NODENAME=node, SLURM_JOB_PARTITION="all")
    return task(runner, 3, "all", 5)


def test_task_leaves_a_node_without_an_engine(runner: Runner) -> None:
    """Up to the third node, and besides what was excluded before, and the task's comment."""
    runner.write("excluded", "nd\n")
    runner.write("comment", "mine\n")
    wanted = ""
    for node, nodes in (("na", "na"), ("nb", "na,nb")):
        assert on_node(runner, node).status == 69
        wanted += (
            f"update JobId=77_3 Comment=mine; no engine on {nodes}\n"
            "requeue 77_3\n"
            f"update JobId=77_3 ExcNodeList=nd,{nodes}\n"
        )
        assert (runner.folder / "given").read_text() == wanted
    done = on_node(runner, "nc")
    message = "tournament.sbatch: task 77_3 can't start an engine on na nb nc, and ends\n"
    assert (done.status, done.errors.splitlines(True)[-1]) == (69, message)
    assert (runner.folder / "given").read_text() == wanted


def test_task_stays_on_the_last_node(runner: Runner) -> None:
    runner.write("excluded", "nb\n")
    runner.write("comment", "(null)\n")
    done = on_node(runner, "na", nodes="na nb")
    message = "can't start an engine on na, and ends, since no other node is left\n"
    assert (done.status, done.errors.endswith(message)) == (69, True)
    assert (runner.folder / "given").read_text() == ""
