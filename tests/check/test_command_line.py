"""The command line of gtp_check: usage errors, after which nothing is started, and the help."""
from __future__ import annotations

import re
from pathlib import Path

import pytest

from tests.shared.processes import run
from tests.shared.usage import check_help, check_unread, check_usage_error

ENGINE = "touch started"  # leaves a file where it is started
PUT_IT_IN_QUOTES = "An engine's command is one argument, in quotes: gtp_check 'gnugo --mode gtp'\n"


@pytest.mark.parametrize(
    "words, named",
    [
        pytest.param(
            ["touch", "started"],
            ["'started'", "--help", PUT_IT_IN_QUOTES],
            id="an engine without quotes",
        ),
        pytest.param(
            ["gtp_engine", "--policy", "random"],
            ["'--policy'", PUT_IT_IN_QUOTES],
            id="an engine's option without quotes",
        ),
        pytest.param(
            ["--only", "kos", ENGINE],
            ["'kos'", "--only", "start, placed, errors, sizes"],
            id="a lesson that there is not",
        ),
        pytest.param(
            ["--skip", "kos", ENGINE],
            ["'kos'", "--skip"],
            id="a lesson to skip that there is not",
        ),
        pytest.param([ENGINE, "--only"], ["--only", "--help"], id="no lesson"),
        pytest.param(["--size", "4", ENGINE], ["'4'", "--size", "5..=25"], id="a size below 5"),
        pytest.param(["--size", "26", ENGINE], ["'26'", "--size", "5..=25"], id="a size above 25"),
        pytest.param(
            ["--ko", "japanese", ENGINE],
            ["'japanese'", "--ko", "simple, positional"],
            id="a rule that there is not",
        ),
        pytest.param(
            ["--seed", "4294967296", ENGINE],
            ["'4294967296'", "--seed"],
            id="a seed that is too large",
        ),
        pytest.param(["--restarts", "-1", ENGINE], ["-1", "--help"], id="restarts below zero"),
        pytest.param(["--quick", "--quick", ENGINE], ["--quick", "--help"], id="an option twice"),
        pytest.param(
            ["--black", ENGINE],
            ["--black", "--help", PUT_IT_IN_QUOTES],
            id="an option of the match program",
        ),
    ],
)
def test_usage_error(words: list[str], named: list[str], gtp_check: Path, tmp_path: Path) -> None:
    check_usage_error(run([gtp_check, *words], cwd=tmp_path), *named)
    assert not (tmp_path / "started").exists()


VALUES = {
    "--ko": "simple",
    "--suicide": "unasked",
    "--score": "unasked",
    "--only": "ko",
    "--skip": "ko",
}
STAND_BEFORE = "gtp_check: options stand before the engine's command: gtp_check"


@pytest.mark.parametrize(
    "words, right",
    [
        pytest.param(
            ["touch", "--ko", "positional"],
            "--ko positional 'touch'",
            id="an option after the engine",
        ),
        pytest.param(
            ["--ko", "simple", "--quick", ENGINE, "--seed=2", "--singly"],
            "--ko simple --quick --seed=2 --singly 'touch started'",
            id="options before and after",
        ),
        pytest.param(["touch", "--list"], "--list 'touch'", id="a flag after the engine"),
        pytest.param(
            ["simple", "--ko", "simple"],
            "--ko simple 'simple'",
            id="an engine named like a value",
        ),
    ],
)
def test_option_after_the_command(
    words: list[str], right: str, gtp_check: Path, tmp_path: Path
) -> None:
    done = run([gtp_check, *words], cwd=tmp_path)
    assert (done.returncode, done.stdout, done.stderr) == (2, "", f"{STAND_BEFORE} {right}\n")
    assert list(tmp_path.iterdir()) == []


def options_with_values(gtp_check: Path) -> list[str]:
    """Returns the options of the help that take a value."""
    return re.findall(r"^ +(?:-., )?(--[a-z-]+) <", run([gtp_check, "--help"]).stdout, re.M)


def test_value_is_no_command(gtp_check: Path, tmp_path: Path) -> None:
    """Each option with a value is taken with it, before the command and after it."""
    options = options_with_values(gtp_check)
    assert "--only" in options
    for option in options:
        value = VALUES.get(option, "9")
        done = run([gtp_check, option, value, "./engine"], cwd=tmp_path)
        assert "not started: no such file" in done.stderr
        done = run([gtp_check, "./engine", option, value], cwd=tmp_path)
        assert done.stderr == f"{STAND_BEFORE} {option} {value} './engine'\n"


@pytest.mark.parametrize("word", ["--help", "--version"])
def test_help_after_the_command(word: str, gtp_check: Path) -> None:
    check_help(run([gtp_check, ENGINE, word]), "gtp_check")


@pytest.mark.parametrize("word", ["simple", "--seed=1", "--"])
def test_command_after_the_options(word: str, gtp_check: Path, tmp_path: Path) -> None:
    before = ["--ko", word] if word == "simple" else [word]
    done = run([gtp_check, *before, "simple"], cwd=tmp_path)
    assert done.stderr == 'gtp_check: not started: no such file: "simple"\n'


@pytest.mark.parametrize(
    "words, error",
    [
        pytest.param([], "no command of an engine", id="no engine"),
        pytest.param(["  "], "no command of an engine", id="an engine of spaces"),
        pytest.param(
            ["--only", "ko", "--skip", "ko", ENGINE],
            "--only, --skip and --quick leave no lesson to ask",
            id="no lesson is left",
        ),
        pytest.param(
            ["./engin"], 'not started: no such file: "./engin"', id="an engine that is not there"
        ),
        pytest.param(
            ["my engines/engine"], 'not started: no such file: "my"', id="a path with a space"
        ),
        pytest.param(
            ["/dev/null"], 'not started: not allowed: "/dev/null"', id="a file that is no program"
        ),
    ],
)
def test_own_error(words: list[str], error: str, gtp_check: Path, tmp_path: Path) -> None:
    done = run([gtp_check, *words], cwd=tmp_path)
    assert (done.returncode, done.stdout, done.stderr) == (2, "", f"gtp_check: {error}\n")
    assert not (tmp_path / "started").exists()


def test_list_has_the_lessons(gtp_check: Path) -> None:
    check_help(run([gtp_check, "--list"]), "start ", " restarts ")


def test_help_has_the_statuses(gtp_check: Path) -> None:
    check_help(
        run([gtp_check, "--help"]),
        "0 no complaint: each lesson was completed, with a move answered correctly "
        "1 at least one complaint",
        "Without --timeout there is no limit",
    )


def test_list_that_nobody_reads(gtp_check: Path) -> None:
    check_unread([gtp_check, "--list"])
