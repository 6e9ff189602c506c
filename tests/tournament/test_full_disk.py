"""Nothing can be written: a full disk, files that may have no byte, or no output."""
from __future__ import annotations

import contextlib
import os
import re
import subprocess
from pathlib import Path
from typing import Dict, Iterator

import pytest

from .runner import SMALL, TWO, Done, Runner

PLAN = ["all", *TWO, "--seeds", "4", *SMALL]


# ---- a small file system


@pytest.fixture
def disk(runner: Runner) -> Iterator[Path]:
    """Returns a directory on a file system of 256 kB."""
    place = runner.folder / "disk"
    place.mkdir()
    mount = ["mount", "-t", "tmpfs", "-o", "size=256k", "none", str(place)]
    if subprocess.run(mount, capture_output=True).returncode != 0:
        pytest.skip("nothing may be mounted here")
    yield place
    runner.kill_all()
    subprocess.run(["umount", place], check=True)


@pytest.mark.root
def test_full_disk(disk: Path, runner: Runner, small_results: Dict[str, str]) -> None:
    assert runner.tournament("plan", "disk/all", *PLAN[1:]).status == 0
    filler = disk / "filler"
    with open(filler, "wb", buffering=0) as file, contextlib.suppress(OSError):
        while True:
            file.write(bytes(4096))
    # pages of a game that is played, and those that two leave
    os.truncate(filler, filler.stat().st_size - 18 * 4096)
    status, output, errors = runner.tournament("play", "disk/all", "--jobs", "1")
    played = runner.games("disk/all")
    assert 0 < len(played) < 8
    assert played.items() <= small_results.items()
    assert status == 1
    assert output.splitlines()[-1] == f"{len(played)} of 8 games have a result"
    # the first game that has no result is reported, and what to do is said once
    (reported,) = set(re.findall(r"^tournament: (\d\w*): ", errors, re.MULTILINE))
    assert reported in set(small_results) - set(played)
    why = "disk/all can't be written to: No space left on device"
    line = f"tournament: {why}: make room there, and the same command goes on"
    assert errors.splitlines().count(line) == 1

    filler.unlink()
    subprocess.run(["mount", "-o", "remount,size=16m", disk], check=True)
    assert runner.tournament("play", "disk/all")[::2] == (0, "")
    assert runner.games("disk/all") == small_results
    assert runner.processes() == []


# ---- files that may have no byte, which is a full disk everywhere


def limited(runner: Runner, command: str) -> Done:
    """Returns what comes of a command whose files may have no byte."""
    return runner.shell(f"ulimit -f 0; {command}")


def test_no_plan_is_left_that_cannot_be_written(runner: Runner) -> None:
    assert limited(runner, "tournament plan all --engine a=x --engine b=y").status == 1
    assert not (runner.folder / "all/plan").exists()


def test_trial_that_cannot_be_noted(runner: Runner) -> None:
    runner.tournament("plan", *PLAN)
    status, output, errors = limited(runner, "tournament game all 1_one_two")
    assert (status, output) == (1, "")
    assert errors.startswith(
        "tournament: 1_one_two: no result: File too large\n"
        "tournament: all can't be written to: File too large"
    )


@pytest.mark.parametrize(
    "direct, why",
    [
        pytest.param(
            [],
            "File too large; so its log isn't written either\n"
            "tournament: all can't be written to: File too large",
            id="between",
        ),
        pytest.param(
            ["--direct"],
            "File too large: status 3 of twogtp: is the disk full?; so its log isn't",
            id="--direct",
        ),
    ],
)
def test_result_that_cannot_be_written(direct: "list[str]", why: str, runner: Runner) -> None:
    runner.tournament("plan", "all", *TWO, "--seeds", "4", *direct, *SMALL)
    runner.pass_trials()
    status, output, errors = limited(runner, "tournament game all 1_one_two")
    assert (status, output) == (1, "")
    assert errors.startswith(f"tournament: 1_one_two: no result: {why}")
    assert runner.games() == {}


def test_each_game_is_reported_and_played_with_room(
    runner: Runner, small_results: Dict[str, str]
) -> None:
    runner.tournament("plan", *PLAN)
    runner.pass_trials()
    errors = limited(runner, "tournament list all | xargs -r -n 1 -P 4 tournament game all").errors
    reported = re.findall(r"^tournament: (\w+): no result: ", errors, re.MULTILINE)
    assert sorted(reported) == sorted(small_results)
    assert runner.games() == {}
    assert runner.tournament("play", "all").status == 0
    assert runner.games() == small_results


# ---- an output that can't be written


@pytest.mark.parametrize(
    "where, why",
    [("> /dev/full", "No space left on device"), (">&-", "Bad file descriptor")],
)
def test_no_other_game_begins_without_an_output(where: str, why: str, runner: Runner) -> None:
    said = f"tournament: standard output can't be written to: {why}: no other game is begun here\n"
    runner.tournament("plan", *PLAN)
    done = runner.shell(f"tournament play all --jobs 1 {where}")
    counted = "tournament: 1 of 8 games have a result; the same command goes on\n"
    assert done == (1, "", said + counted)
    assert list(runner.games()) == ["1_one_two"]
    assert runner.tournament("play", "all").status == 0
    # where no game is left, the line that counts them can't be written
    done = runner.shell(f"tournament play all {where}")
    assert done == (1, "", said + counted.replace("1 of", "8 of"))
