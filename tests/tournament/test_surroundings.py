"""Runs that share a directory, whose output nobody reads, or that ignore signals from the start."""
from __future__ import annotations

import os
import signal
import subprocess
from typing import Dict, List, Set

import pytest

from .runner import SMALL, TWO, Runner, engines

SEEDS = ["--seeds", "4", *SMALL]
UNSEEN = dict.fromkeys(["stdout", "stderr"], subprocess.DEVNULL)


@pytest.fixture
def slow(runner: Runner) -> List[str]:
    """Returns two engines that begin slowly, and play as TWO."""
    runner.script("slow", 'sleep 0.4\nexec gtp_engine --policy random --seed "$1"')
    return engines(one="./slow %s", two="./slow 10%s")


def test_two_runs_share_a_directory(
    slow: List[str], runner: Runner, small_results: Dict[str, str]
) -> None:
    words = ["tournament", "play", "all", *slow, "--jobs", "2", *SEEDS]
    runs = [runner.start(*words), runner.start(*words)]
    both = [runner.finish(run) for run in runs]
    assert runner.games() == small_results
    assert list((runner.folder / "all/running").iterdir()) == []
    # the one that ends last has status 0; the other may name games that are played still
    statuses = {done.status for done in both}
    assert 0 in statuses and statuses <= {0, 1}
    named = "tournament: games that another process plays: "
    assert all(line.startswith(named) for done in both for line in done.errors.splitlines())
    lines = [line for done in both for line in done.output.splitlines()]
    assert sorted(line.split(": ")[1] for line in lines if ": " in line) == sorted(small_results)
    assert max(int(line.split()[0]) for line in lines) == 8


# ---- output that nobody reads


def test_reader_that_ends_also_ends_the_run(runner: Runner) -> None:
    runner.script("waits", "[ $1 = 1 ] || until [ -e go ]; do sleep 0.1; done; exec gtp_engine")
    runner.tournament("plan", "all", *engines(one="./waits %s", two="gtp_engine"), *SEEDS)
    done = runner.shell(
        "tournament play all --jobs 1 | (head -n 1; exec <&-; touch go); echo ${PIPESTATUS[0]}"
    )
    line, status = done.output.splitlines()
    assert (line[:8], status) == ("1 of 8: ", "141")
    assert len(runner.games()) < 8
    assert runner.is_idle()


@pytest.mark.parametrize(
    "command", ["tournament list all", "tournament export all --csv", "tally all", "tally --help"]
)
def test_output_that_nobody_reads(command: str, runner: Runner) -> None:
    runner.tournament("plan", "all", *TWO)
    reader, writer = os.pipe()
    os.close(reader)
    with open(writer, "w") as output:
        assert runner.run(*command.split(), stdout=output) == (141, "", "")


# ---- limits and signals


def test_few_open_files(slow: List[str], runner: Runner) -> None:
    # too many games for these files, of which the run has one for each game that is played
    runner.tournament("plan", "all", *slow, "--seeds", "10", *SMALL)
    done = runner.shell("ulimit -n 14; tournament play all --jobs 50")
    assert (done[::2], len(runner.games())) == ((0, ""), 20)


def ignore_children() -> None:
    """Ignores the ends of processes, and so does what is started then."""
    signal.signal(signal.SIGCHLD, signal.SIG_IGN)


def test_run_that_ignores_the_ends_of_processes(
    runner: Runner, small_results: Dict[str, str]
) -> None:
    done = runner.tournament("play", "all", *TWO, *SEEDS, preexec_fn=ignore_children)
    assert (done[::2], runner.games()) == ((0, ""), small_results)


def ignored_by(pid: int) -> Set[int]:
    """Returns the signals that a process ignores."""
    with open(f"/proc/{pid}/status") as file:
        mask = next(int(line.split()[1], 16) for line in file if line.startswith("SigIgn:"))
    return {number for number in range(1, 65) if mask >> number - 1 & 1}


def test_engines_ignore_no_signals_that_the_run_ignores(runner: Runner) -> None:
    runner.tournament("plan", "all", *engines(one="sleep 1000", two="sleep 1000"))
    runner.pass_trials()
    command = 'trap "" TERM INT; exec tournament play all --jobs 1'
    runner.start("bash", "-c", command, **UNSEEN)
    runner.wait_until(lambda: len(runner.named("sleep")) == 2)
    for pid in runner.named("sleep"):
        assert ignored_by(pid) & {signal.SIGTERM, signal.SIGINT, signal.SIGPIPE} == set()


def test_run_under_nohup_ignores_hup(
    slow: List[str], runner: Runner, small_results: Dict[str, str]
) -> None:
    runner.tournament("plan", "all", *slow, *SEEDS)
    run = runner.start("bash", "-c", 'trap "" HUP; exec tournament play all', **UNSEEN)
    runner.wait_for("slow", "twogtp")
    run.send_signal(signal.SIGHUP)
    assert (runner.finish(run).status, runner.games()) == (0, small_results)
