"""The command line of twogtp: usage errors, after which nothing is started, and the help."""
from __future__ import annotations

from pathlib import Path
from subprocess import CompletedProcess
from typing import Mapping

import pytest

from tests.shared.processes import run
from tests.shared.usage import check_help, check_unread, check_usage_error

ENGINE = "touch started"  # leaves a file where it is started
Environment = Mapping[str, str]


def play(folder: Path, environment: Environment, *options: str) -> CompletedProcess[str]:
    """Returns the result of a match in this folder between engines that only leave a file."""
    command = ["twogtp", "--black", ENGINE, "--white", ENGINE, *options]
    return run(command, cwd=folder, env=environment)


def test_engine_is_started_without_a_mistake(
    twogtp: Path, environment: Environment, tmp_path: Path
) -> None:
    done = play(tmp_path, environment, "--restarts", "0")
    line = "game 1: abandoned black moves 0 restarts 0 0\n"
    assert (done.returncode, done.stdout, done.stderr) == (1, line, "")
    assert (tmp_path / "started").exists()


@pytest.mark.parametrize(
    "options, named",
    [
        pytest.param(["--komi", "-3.5"], ["-3"], id="a komi below zero without the sign ="),
        pytest.param(["--restarts", "-1"], ["-1"], id="restarts below zero"),
        pytest.param(
            ["--size", "26", "--komi", "6.7"],
            ["--size", "26"],
            id="a size of 26 is looked at before the komi",
        ),
        *(
            pytest.param([option, number], [option, number], id=f"past a limit: {option} {number}")
            for option, number in (
                ("--size", "0"),
                ("--size", "nine"),
                ("--handicap", "10"),
                ("--games", "0"),
                ("--games", "1001"),
                ("--max-moves", "0"),
                ("--max-moves", "2001"),
                ("--restarts", "1001"),
            )
        ),
        pytest.param(["--size", "9", "--size", "13"], ["--size"], id="an option twice"),
        pytest.param(["--boardsize", "9"], ["--boardsize"], id="an option that isn't there"),
    ],
)
def test_usage_error(
    options: list[str], named: list[str], twogtp: Path, environment: Environment, tmp_path: Path
) -> None:
    check_usage_error(play(tmp_path, environment, *options), *named, "--help")
    assert not (tmp_path / "started").exists()


@pytest.mark.parametrize(
    "words, named",
    [
        pytest.param(["--black", ENGINE], ["--white"], id="no command for White"),
        pytest.param([], ["--black", "--white"], id="no word at all"),
    ],
)
def test_missing_engine_is_a_usage_error(
    words: list[str], named: list[str], twogtp: Path, tmp_path: Path
) -> None:
    check_usage_error(run([twogtp, *words], cwd=tmp_path), *named, "--help")
    assert not (tmp_path / "started").exists()


OPTIONS = "black white size komi handicap games max-moves restarts record show why help version"


@pytest.mark.parametrize(
    "parts",
    [
        pytest.param([f"--{name}" for name in OPTIONS.split()], id="each option"),
        pytest.param(["0, or 2 to 9", "2 to 4", "even sizes", "size 7"], id="handicaps of a size"),
        pytest.param(
            [
                "3 the program could not go on: write fault, out of memory, too many turns",
                "More: man twogtp",
            ],
            id="statuses, and more",
        ),
    ],
)
def test_help(parts: list[str], twogtp: Path) -> None:
    check_help(run([twogtp, "--help"]), *parts)


def test_version(twogtp: Path) -> None:
    done = run([twogtp, "--version"])
    assert (done.returncode, done.stdout, done.stderr) == (0, "twogtp 1.0\n", "")


def test_help_that_nobody_reads(twogtp: Path) -> None:
    check_unread([twogtp, "--help"])


def test_argument_that_is_no_text_is_reported(twogtp: Path) -> None:
    done = run([twogtp, "--black", b"\xff"])
    assert (done.returncode, done.stdout, done.stderr) == (2, "", "twogtp: bad argument\n")
