"""The commands that tournament play runs at its end, and at the first failure."""
from __future__ import annotations

import json
import os
import signal
from typing import Any, Dict, List

from .runner import SCRIPTS, TWO, Runner, engines, kill

# With seed 2 two can't be started.
FAILS = '[ "$1" != 2 ] || exit 7\nexec gtp_engine'
# each command adds what it reads to a file
BOTH = ["--on-end", "cat >> end", "--on-failure=cat >> failure"]
TINY = ["--", "--size", "2"]
# The scripts with a shorter limit of a command.
SHORT = """\
import sys
sys.path.insert(0, sys.argv.pop(1))
from vintsaky_tournament.cli import running, tournament
from vintsaky_tournament.play import hooks
hooks.LIMIT = 1
sys.exit(running.run("tournament", tournament.main, sys.argv[1:]))
"""


def read(runner: Runner, name: str) -> List[Dict[str, Any]]:
    """Returns what a command has read, each time that it was run."""
    return [json.loads(line) for line in (runner.folder / name).read_text().splitlines()]


def plan(runner: Runner) -> None:
    """Plans six games, of which two can't be played."""
    runner.script("fails", FAILS)
    words = engines(one="gtp_engine --seed %s", two="./fails %s")
    runner.tournament("plan", "all", *words, "--seeds", "3", *TINY)


def test_both_read_the_tally_and_what_failed(runner: Runner) -> None:
    plan(runner)
    done = runner.tournament("play", "all", "--jobs", "1", *BOTH)
    logs = runner.files("all/logs")
    reasons = {game: log.splitlines()[-1].split(": ", 1)[1] for game, log in logs.items()}
    assert sorted(reasons) == ["2_one_two", "2_two_one"]
    tallied = json.loads(runner.tally("all", "--json").output)
    more = {"folder": str(runner.folder / "all"), "task": None}
    end = {**tallied, **more, "event": "end", "status": 1, "failed": reasons}
    assert (done.status, read(runner, "end")) == (1, [end])
    (failure,) = read(runner, "failure")
    first = {"2_one_two": reasons["2_one_two"]}
    wanted = {**more, "event": "failure", "status": None, "failed": first}
    assert {key: failure[key] for key in wanted} == wanted
    assert failure["results"] >= 2
    # those of a task, and of a test
    done = runner.tournament("play", "all", "--task", "2/5", *BOTH)
    assert (done.status, read(runner, "end")[1]["task"]) == (0, "2/5")
    runner.tournament("play", "all", "--sprt", "0", "10", *BOTH)
    sprt = json.loads(runner.tally("all", "--json", "--sprt", "0", "10").output)["sprt"]
    assert read(runner, "end")[2]["sprt"] == sprt


def test_abandoned_side_is_a_failure(runner: Runner) -> None:
    words = engines(one="gtp_engine", two="gtp_engine --fault stop:1")
    runner.tournament("play", "all", *words, "--seeds", "1", *BOTH, *TINY)
    (end,), (failure,) = read(runner, "end"), read(runner, "failure")
    assert end["failed"] == {"1_one_two": "abandoned white", "1_two_one": "abandoned black"}
    assert len(failure["failed"]) == 1


def test_engine_that_cannot_be_started(runner: Runner) -> None:
    words = engines(one="./gone", two="gtp_engine")
    assert runner.tournament("play", "all", *words, *BOTH).status == 69
    (end,), (failure,) = read(runner, "end"), read(runner, "failure")
    failed = {"one": f"it can't be started on {os.uname().nodename}"}
    assert (end["status"], end["failed"], failure["failed"]) == (69, failed, failed)


def test_run_that_is_stopped(runner: Runner) -> None:
    runner.tournament("plan", "all", *engines(one="sleep 1000", two="cat"))
    runner.pass_trials()
    run = runner.start("tournament", "play", "all", *BOTH)
    runner.wait_for("sleep")
    run.terminate()
    assert runner.finish(run).status == 143
    assert [end["status"] for end in read(runner, "end")] == [143]
    assert not (runner.folder / "failure").exists()


def test_commands_that_fail_or_hang(runner: Runner) -> None:
    hangs = "trap '' TERM; sleep 1000 & sleep 1000"
    options = ["--seeds", "1", "--on-end", hangs, *TINY]
    done = runner.run("python3", "-c", SHORT, SCRIPTS, "play", "all", *TWO, *options)
    line = f"tournament: --on-end: it was ended, since it took over 1 seconds: {hangs}"
    assert (done.status, done.errors.splitlines()) == (0, [line])
    assert runner.is_idle()
    done = runner.tournament("play", "all", "--on-end", "echo no; exit 3")
    line = "tournament: --on-end: it failed with status 3: echo no; exit 3"
    assert (done.status, done.errors.splitlines()) == (0, ["no", line])


def test_broken_game_does_not_end_a_command(runner: Runner) -> None:
    """A game's process that is killed leaves others behind, which are ended."""
    waits = "until [ -e go ]; do sleep 0.05; done"
    runner.script("waits", f'[ "$1" != 1 ] || exit 7\n{waits}\nexec gtp_engine')
    words = engines(one="gtp_engine --seed %s", two="./waits %s")
    runner.tournament("plan", "all", *words, "--seeds", "2", *TINY)
    runner.pass_trials()
    command = f"echo >> begun; {waits}; cat >> failure"
    run = runner.start("tournament", "play", "all", "--jobs", "1", "--on-failure", command)
    runner.wait_until((runner.folder / "begun").exists)
    runner.wait_for("game 2_one_two")
    kill(runner.named("game 2_one_two")[0], signal.SIGKILL)
    runner.wait_for("game 2_two_one")
    runner.write("go", "")
    assert runner.finish(run).status == 1
    assert len(read(runner, "failure")) == 1


def test_keys_of_a_file(runner: Runner) -> None:
    (runner.folder / "below").mkdir()
    text = 'seeds = 1\nsize = 2\non-end = "cat > end"\n'
    for name in ("one", "two"):
        text += f'[engines.{name}]\ncommand = "gtp_engine --seed %s"\n'
    runner.write("below/night.toml", text)
    assert runner.tournament("play", "below/night.toml").status == 0
    (end,) = read(runner, "below/end")
    assert (end["status"], end["failed"]) == (0, {})
    done = runner.tournament("play", "below/night", "--on-end", " ")
    assert (done.status, done.errors) == (
        2,
        "tournament: --on-end needs a command, such as --on-end 'mail -s night me'\n",
    )
