"""Processes of a run are killed: no engine is left, and only what was killed is lost."""
from __future__ import annotations

import os
import shutil
import signal
import sys
import tempfile
from pathlib import Path
from subprocess import DEVNULL, PIPE, Popen
from typing import Dict, Iterator, List

import pytest

from .misbehaving import HANGS, STUBBORN, WAITS
from .runner import SCRIPTS, SMALL, Done, Runner, engines, kill

UNREAD = {"stdout": DEVNULL, "stderr": DEVNULL}  # which what is left could hold open
ONE_AT_A_TIME = ["play", "all", "--jobs", "1"]
RELAYS = ["between black", "between white"]  # once both are there, no fork has another's name


def kill_at_one_moment(processes: List[int]) -> None:
    """Kills processes, none of which can see that another one is gone."""
    for number in (signal.SIGSTOP, signal.SIGKILL):
        for process in processes:
            kill(process, number)


@pytest.mark.parametrize("name", ["tournament", "game 1_one_two", "twogtp"])
@pytest.mark.parametrize("command", [ONE_AT_A_TIME, ["game", "all", "1_one_two"]], ids=" ".join)
def test_one_process_is_killed(command: List[str], name: str, runner: Runner) -> None:
    # each process watches over the next one
    stubborn = runner.script("stubborn", STUBBORN)
    both = engines(one=str(stubborn), two=f"timeout 300 {stubborn}")
    runner.tournament("plan", "all", *both, "--seeds", "1")
    runner.pass_trials()
    process = runner.start("tournament", *command, **UNREAD)
    runner.wait_for(*RELAYS)
    runner.wait_until(lambda: len(runner.named("stubborn")) >= 4)
    first = {*runner.named("stubborn"), *runner.named("timeout")}
    (killed,) = runner.named(name)
    kill(killed)
    runner.wait_until(lambda: not first & {it.pid for it in runner.processes()})
    process.terminate()
    assert runner.is_idle()


def test_run_kills_what_a_killed_game_has_left(runner: Runner) -> None:
    # with --direct nothing else watches over an engine whose twogtp is gone
    stubborn = runner.script("stubborn", STUBBORN)
    both = engines(one=str(stubborn), two=str(stubborn))
    runner.tournament("plan", "all", *both, "--seeds", "1", "--direct")
    runner.pass_trials()
    process = runner.start("tournament", *ONE_AT_A_TIME, **UNREAD)
    runner.wait_until(lambda: len(runner.named("stubborn")) >= 4)
    first = set(runner.named("stubborn"))
    kill(runner.named("game 1_one_two")[0])
    runner.wait_until(lambda: not first & set(runner.named("stubborn")))
    process.terminate()
    assert runner.is_idle()


def test_all_that_play_are_killed_at_one_moment(runner: Runner) -> None:
    hangs = runner.script("hangs", HANGS)
    both = engines(one=f"{hangs} 1", two=f"{hangs} 1")
    runner.tournament("plan", "all", *both, "--seeds", "1", "--", "--size", "9")
    runner.pass_trials()
    process = runner.start("tournament", *ONE_AT_A_TIME)
    runner.wait_for("sleep")
    kill_at_one_moment([process.pid, *runner.named("game 1_one_two"), *runner.named("twogtp")])
    assert runner.is_idle()


# another program of the name that starts twogtp, and isn't replaced by it
WRAPPED = """\
#!/bin/bash
{twogtp} "$@"
exit $?
"""


@pytest.mark.parametrize(
    "first, name, how",
    [
        *((first, name, "") for first in ("run", "game") for name in ("hangs", "stubborn")),
        ("game", "stubborn", "by a script"),
        ("run", "hangs", "--direct"),
        ("game", "stubborn", "--direct"),
    ],
)
def test_run_and_game_are_killed_at_one_moment(
    first: str, name: str, how: str, runner: Runner
) -> None:
    if how == "by a script":
        text = WRAPPED.format(twogtp=runner.environment["TWOGTP"])
        runner.environment["TWOGTP"] = str(runner.script("wrapped", text))
    engine = runner.script(name, {"hangs": HANGS, "stubborn": STUBBORN}[name])
    both = engines(one=f"{engine} 2", two=f"{engine} 2")
    direct = ["--direct"] if how == "--direct" else []
    runner.tournament("plan", "all", *both, "--seeds", "1", *direct, "--", "--size", "9")
    runner.pass_trials()
    process = runner.start("tournament", *ONE_AT_A_TIME, **UNREAD)
    runner.wait_for("sleep", "twogtp")
    (game,) = runner.named("game 1_one_two")
    pair = [process.pid, game]
    kill_at_one_moment(pair if first == "run" else pair[::-1])
    # with --direct nothing watches over an engine but twogtp
    runner.wait_until(lambda: not (runner.named("twogtp") if direct else runner.processes()))


def begin(runner: Runner) -> Popen[str]:
    """Begins the small tournament, whose first game does not end before there is a file `go`."""
    waits = runner.script("waits", WAITS)
    both = engines(one=f"{waits} %s '' 1", two=f"{waits} %s 10 1")
    runner.tournament("plan", "all", *both, "--seeds", "4", *SMALL)
    runner.pass_trials()
    process = runner.start("tournament", *ONE_AT_A_TIME)
    runner.wait_for(*RELAYS)
    return process


@pytest.mark.parametrize(
    "name, why",
    [
        ("game 1_one_two", "its process was ended by signal 9"),
        ("twogtp", "ended by signal 9"),
    ],
)
def test_process_of_a_game_costs_that_game_alone(
    name: str, why: str, runner: Runner, small_results: Dict[str, str]
) -> None:
    process = begin(runner)
    (killed,) = runner.named(name)
    kill(killed)
    runner.wait_until(lambda: killed not in runner.named(name))
    runner.write("go", "")
    done = runner.finish(process)
    assert (done.status, done.errors) == (1, f"tournament: 1_one_two: no result: {why}\n")
    log = (runner.folder / "all/logs/1_one_two").read_text()
    assert log.splitlines()[-1] == f"tournament: {why}"
    assert runner.processes() == []
    assert runner.files("all/running") == {}
    assert runner.games() == {
        game: text for game, text in small_results.items() if game != "1_one_two"
    }
    assert runner.tournament("play", "all").status == 0
    assert runner.games() == small_results


def test_process_of_a_game_that_others_ask_to_end_says_so(runner: Runner) -> None:
    # else nobody would know why the game has no result
    process = begin(runner)
    (game,) = runner.named("game 1_one_two")
    kill(game, signal.SIGTERM)
    runner.wait_until(lambda: not runner.named("game 1_one_two"))
    runner.write("go", "")
    done = runner.finish(process)
    why = "its process was asked to end, and not by this run"
    assert (done.status, done.errors) == (1, f"tournament: 1_one_two: no result: {why}\n")
    log = (runner.folder / "all/logs/1_one_two").read_text()
    assert log.splitlines()[-1] == f"tournament: {why}"
    assert f"no result: 1\n  1_one_two: {why}" in runner.tally("all").output
    assert len(runner.games()) == 7
    assert runner.processes() == []
    assert runner.files("all/running") == {}


# ---- signals of an engine to its process group


# It sends a signal to its process group where it ends, also in its third move.
GROUP = """\
#!/bin/bash
trap 'kill -{} 0' EXIT
gtp_engine "$@"
"""
GAMES = ["1_one_two", "1_two_one"]
BOARD = ["--size", "5", "--restarts", "0"]
each_signal = pytest.mark.parametrize("name", ["TERM", "INT", "KILL"])


def play_with_group(runner: Runner, name: str, engine: str, *words: str) -> Done:
    """Plays two games of an engine that sends this signal."""
    group = runner.script("group", GROUP.format(name))
    both = engines(one=f"{group} {engine}", two="gtp_engine")
    done = runner.tournament("play", "all", *both, "--seeds", "1", "--jobs", "1", *words)
    assert runner.processes() == []
    return done


def verdicts(runner: Runner) -> Dict[str, str]:
    """Returns the result lines of the games."""
    return {game: text.splitlines()[0][8:] for game, text in runner.games().items()}


@each_signal
@pytest.mark.parametrize("how", [[], ["--direct"]], ids=["between", "--direct"])
def test_signal_at_the_end_of_a_game(how: List[str], name: str, runner: Runner) -> None:
    done = play_with_group(runner, name, "", *how, "--", *BOARD, "--max-moves", "3")
    assert (done.status, done.errors) == (0, "")
    assert verdicts(runner) == dict.fromkeys(GAMES, "limit moves 3 restarts 0 0")


@each_signal
def test_signal_in_a_move_ends_the_engine_alone(name: str, runner: Runner) -> None:
    done = play_with_group(runner, name, "--fault stop:3", "--", *BOARD)
    assert (done.status, done.errors) == (1, "")
    assert verdicts(runner) == {
        "1_one_two": "abandoned black moves 4 restarts 0 0",
        "1_two_one": "abandoned white moves 5 restarts 0 0",
    }


@each_signal
def test_signal_in_a_move_ends_the_game_with_direct(name: str, runner: Runner) -> None:
    done = play_with_group(runner, name, "--fault stop:3", "--direct", "--", *BOARD)
    why = f"ended by signal {getattr(signal, f'SIG{name}'):d}"
    lines = [f"tournament: {game}: no result: {why}" for game in GAMES]
    assert (done.status, done.errors.splitlines()) == (1, lines)
    assert verdicts(runner) == {}
    for log in runner.files("all/logs").values():
        assert log.splitlines()[-1] == f"tournament: {why}"


# ---- what may not be killed


@pytest.fixture
def open_folder() -> Iterator[Path]:
    """Returns a directory that every user may read."""
    with tempfile.TemporaryDirectory() as name:
        os.chmod(name, 0o755)
        yield Path(name)


def become_nobody() -> None:
    """Takes all rights from a process of root."""
    os.setresuid(65534, 65534, 65534)


@pytest.mark.root
def test_process_that_may_not_be_killed_is_left(runner: Runner, open_folder: Path) -> None:
    # such as an engine by sudo, for which nobody waits
    if os.statvfs(open_folder).f_flag & os.ST_NOSUID:
        pytest.skip("programs get no rights of their owners in this file system")
    patience = shutil.copytree(SCRIPTS, open_folder / "scripts") / "patience"
    sudo = shutil.copy(shutil.which("setpriv") or pytest.skip("no setpriv"), open_folder)
    os.chmod(sudo, 0o4755)
    engine = ["sh", "-c", f"{sudo} --reuid 0 sleep 1001 & sleep 1002 & sleep 1003; sleep 1004"]
    process = runner.start(
        *(sys.executable, "-S", patience, "3", *engine),
        cwd=open_folder,
        stdin=PIPE,
        stdout=DEVNULL,
        preexec_fn=become_nobody,
    )
    assert process.stdin
    process.stdin.write("name\n")
    process.stdin.flush()
    assert process.wait() == 124
    assert [process.command.strip() for process in runner.processes()] == ["sleep 1001"]
