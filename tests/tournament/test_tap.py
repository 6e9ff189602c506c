"""The script tap, which records what an engine is sent and answers."""
from __future__ import annotations

from typing import List

import pytest

from .runner import Runner

KINDS = ["commands", "ended", "process", "replies"]


def play(runner: Runner, log: str) -> None:
    """Plays a match of two engines whose traffic is recorded under one name."""
    engines = [
        *("--black", f"tap {log} gtp_engine"),
        *("--white", f"tap {log} gtp_engine --policy random"),
    ]
    runner.run("twogtp", *engines, "--size", "2", "--max-moves", "6")
    runner.wait_until(lambda: len(list(runner.folder.glob(f"{log}.*.ended"))) == 2)


def test_two_engines_of_one_log_have_files_of_their_own(runner: Runner) -> None:
    logs = [f"log{number}" for number in range(10)]  # both may start at one moment
    for log in logs:
        play(runner, log)
    wanted = [f"{log}.{side}.{kind}" for log in logs for side in (1, 2) for kind in KINDS]
    texts = runner.files(".")
    assert sorted(texts) == wanted
    setup = "1 boardsize 2\n2 komi 6.5\n3 clear_board\n"
    for log in logs:
        commands = {side: texts[f"{log}.{side}.commands"] for side in (1, 2)}
        (black,) = [side for side in (1, 2) if commands[side].startswith(f"{setup}4 genmove b\n")]
        assert commands[3 - black].startswith(f"{setup}4 play b A1\n")
        assert texts[f"{log}.{black}.replies"].startswith("=1\n\n=2\n\n=3\n\n=4 A1\n\n")


@pytest.mark.parametrize(
    "arguments",
    [
        pytest.param([], id="no arguments"),
        pytest.param(["log"], id="a log alone"),
        pytest.param(["no/log", "gtp_engine"], id="a log in a directory that isn't there"),
        pytest.param(["file/log", "gtp_engine"], id="a directory that is a file"),
        pytest.param(["log", "no_such_engine"], id="an engine that isn't there"),
    ],
)
def test_usage_error(arguments: List[str], runner: Runner) -> None:
    runner.write("file", "")
    status, output, errors = runner.run("tap", *arguments)
    assert (status, output) == (2, "")
    assert errors != ""
    assert runner.files(".") == {"file": ""}


def test_help(runner: Runner) -> None:
    status, output, errors = runner.run("tap", "--help")
    assert (status, errors) == (0, "")
    assert output.startswith("usage: tap LOG")
