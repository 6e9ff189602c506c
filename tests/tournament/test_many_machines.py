"""Tournaments by other tools and on many machines, and a file system without locks."""
from __future__ import annotations

import os
import re
import shutil
import time
from typing import Dict, List, NamedTuple

import pytest

from .machines import use_parallel
from .runner import RANDOM, SCRIPTS, SMALL, TWO, Done, Runner, engines

FOUR_SEEDS = ["--seeds", "4", *SMALL]


def test_list_and_game(runner: Runner, small_results: Dict[str, str]) -> None:
    runner.tournament("plan", "all", *TWO, *FOUR_SEEDS)
    games = runner.tournament("list", "all").output.splitlines()
    assert sorted(games) == sorted(small_results)
    line = small_results["1_one_two"].splitlines()[0].replace("game 1", "1_one_two")
    assert runner.tournament("game", "all", "1_one_two") == (0, f"{line}\n", "")
    assert runner.tournament("game", "all", "1_one_two") == (0, "", "")
    others = [game for game in games if game != "1_one_two"]
    assert runner.tournament("list", "all").output.splitlines() == others
    assert runner.tournament("list", "all", "--all").output.splitlines() == games
    done = runner.shell("tournament list all | xargs -n 1 -P 3 tournament game all")
    assert (done[::2], runner.games()) == ((0, ""), small_results)


# ---- GNU Parallel


def parallel(runner: Runner, words: str) -> Done:
    """Returns what comes of all games of the plan far by GNU Parallel, with these words."""
    return runner.shell(f"tournament list far | parallel --will-cite {words}")


def test_machines_without_a_shared_directory(runner: Runner, small_results: Dict[str, str]) -> None:
    use_parallel(runner)
    runner.tournament("plan", "far", *TWO, *FOUR_SEEDS)
    for name in ("one", "two"):
        shutil.copytree(runner.folder / "far", runner.folder / name / "far")
    done = parallel(runner, "--sshlogin 2/one,2/two --ssh ssh tournament game far")
    assert done[::2] == (0, "")
    one, two = runner.games("one/far"), runner.games("two/far")
    assert one and two
    assert {**one, **two} == small_results


def test_machines_that_are_taken_out(runner: Runner) -> None:
    use_parallel(runner)
    for name in ("one", "bare/bin"):
        (runner.folder / name).mkdir(parents=True)
    (runner.folder / "bare/bin/tournament").symlink_to(SCRIPTS / "tournament")
    words = [*engines(one="gtp_engine", two=f"{RANDOM} %s"), "--seeds", "5"]
    runner.tournament("plan", "far", *words, "--", "--size", "1")
    runner.write("machines", "1/bare\n# a remark\n2/gone\n1/one\n")
    options = "--retries 5 --sshloginfile machines --ssh 'machine machines'"
    done = parallel(runner, f"{options} tournament game {runner.folder}/far")
    assert (done.status, len(runner.games("far"))) == (0, 10)
    bare, *others = (runner.folder / "machines").read_text().splitlines()
    why = r"tournament: (one|two) can't be started here: gtp_engine: No such file or directory"
    assert re.fullmatch(f"# 1/bare left: {why}", bare)
    assert others == ["# a remark", "# 2/gone left: ssh: no route to gone", "1/one"]


# ---- the script machine

MACHINES = "4/one\n@fast/2/me@two:2222 \n# two\n\n3\n"
NO_ENGINE = "a\nb can't be started here: c\nd\n"


class Reached(NamedTuple):
    """The arguments behind the file of machines, what comes of them, and the file then."""

    words: List[str]
    done: Done
    file: str = MACHINES
    before: str = MACHINES


REACHED = {
    "a success": Reached(["one", "--", "echo", "hello"], Done(0, "hello\n", "")),
    "a failure": Reached(["one", "exit", "1"], Done(1, "", "")),
    "no engine": Reached(
        ["-p", "2222", "-l", "me", "two", "exit", "69"],
        Done(69, "", ""),
        MACHINES.replace(
            "@fast/2/me@two:2222 ",
            "# @fast/2/me@two:2222  left: an engine can't be started there",
        ),
    ),
    "no engine, with a reason": Reached(
        ["one", "--", "echo a >&2; echo b can\\'t be started here: c >&2; echo d >&2; exit 69"],
        Done(69, "", NO_ENGINE),
        MACHINES.replace("4/one", "# 4/one left: b can't be started here: c"),
    ),
    "a machine that isn't in the file": Reached(["two", "exit", "69"], Done(69, "", "")),
    "a machine that can't be reached": Reached(
        ["gone", "true"],
        Done(255, "", "ssh: no route to gone\n"),
        f"{MACHINES}# gone left: ssh: no route to gone\n",
        f"{MACHINES}gone\n",
    ),
    "a machine of which ssh says nothing": Reached(
        ["silent", "true"],
        Done(255, "", ""),
        f"{MACHINES}# silent left: it can't be reached\n",
        f"{MACHINES}silent\n",
    ),
    "the last machine": Reached(
        ["one", "exit", "69"], Done(69, "", ""), "# all\n4/one\n", "# all\n4/one\n"
    ),
}


@pytest.mark.parametrize("reached", REACHED.values(), ids=REACHED)
def test_machine(reached: Reached, runner: Runner) -> None:
    use_parallel(runner)
    for name in ("one", "two", "3"):
        (runner.folder / name).mkdir()
    file = runner.write("list", reached.before)
    os.utime(file, (time.time() + 100,) * 2)
    before = file.stat().st_mtime
    assert runner.run("machine", "list", *reached.words) == reached.done
    assert file.read_text() == reached.file
    # GNU Parallel reads a file again that is later by seconds
    assert (file.stat().st_mtime - before > 1) == (reached.file != reached.before)


@pytest.mark.parametrize("own", [[], ["-p", "22", "-o", "ServerAliveInterval=3"]])
def test_machine_asks_ssh_to_notice_a_machine_that_freezes(own: List[str], runner: Runner) -> None:
    use_parallel(runner)
    (runner.folder / "one").mkdir()
    runner.write("list", MACHINES)
    assert runner.run("machine", "list", *own, "one", "echo", "hello").output == "hello\n"
    reached = (runner.folder / "reached").read_text()
    # of an option that is there twice ssh takes the first
    assert reached.split() == [*own, "-o", "ServerAliveInterval=15", "one", "echo", "hello"]


@pytest.mark.parametrize("words", ["", "list", "nowhere one true", "list -p 22"])
def test_usage_error_of_machine(words: str, runner: Runner) -> None:
    runner.write("list", MACHINES)
    assert runner.run("machine", *words.split()).status == 2


def test_help_of_machine(runner: Runner) -> None:
    assert runner.run("machine", "--help")[::2] == (0, "")


# ---- locks

# runs a script where each lock fails with this error
NO_LOCKS = """\
import errno, fcntl, os, runpy, sys
number = getattr(errno, sys.argv[1])
def flock(*_):
    raise OSError(number, os.strerror(number))
fcntl.flock = flock
sys.argv = sys.argv[2:]
runpy.run_path(sys.argv[0], run_name="__main__")
"""


def without_locks(runner: Runner, error: str, *words: str) -> Done:
    """Returns what comes of tournament, where locks fail with this error."""
    both = engines(one="gtp_engine", two=f"{RANDOM} 1")
    runner.tournament("plan", "all", *both, "--seeds", "1", "--", "--size", "1")
    runner.pass_trials()
    done = runner.run("python3", "-c", NO_LOCKS, error, SCRIPTS / "tournament", *words)
    assert runner.games() == {}
    return done


PLAY, PLAY_GAME = ["play", "all", "--jobs", "1"], ["game", "all", "1_one_two"]


@pytest.mark.parametrize("words", [PLAY, PLAY_GAME], ids=["play", "game"])
@pytest.mark.parametrize(
    "error, reason",
    [
        ("ENOLCK", "No locks available"),
        ("EOPNOTSUPP", "Operation not supported"),
        ("ENOSYS", "Function not implemented"),
    ],
)
def test_file_system_without_locks(
    error: str, reason: str, words: List[str], runner: Runner
) -> None:
    done = without_locks(runner, error, *words)
    place = f"{runner.folder}/all/running/1_one_two/lock"
    why = f"{place}: {reason}: the directory has to be on a file system with locks"
    more = "tournament: no other game can be played in all either\n"
    assert done[::2] == (1, f"tournament: 1_one_two: no result: {why}\n{more}")


@pytest.mark.parametrize(
    "words, status, report",
    [
        pytest.param(PLAY, 1, "games that another process plays: 2", id="play"),
        pytest.param(PLAY_GAME, 0, "1_one_two: another process plays it", id="game"),
    ],
)
def test_lock_of_another_process(
    words: List[str], status: int, report: str, runner: Runner
) -> None:
    done = without_locks(runner, "EWOULDBLOCK", *words)
    assert done[::2] == (status, f"tournament: {report}\n")
