"""Engines that are late, and those whose own process has exited.

In the lesson `start` an engine is asked what test_hostile_engines.py says. Where a test needs an
engine that isn't late, it leaves several seconds for what takes a moment.
"""
from __future__ import annotations

import subprocess
import sys
import time
from pathlib import Path
from subprocess import DEVNULL, PIPE
from typing import NamedTuple, Sequence

import pytest

from tests.references.controller.engines import Planned
from tests.shared.processes import TIMEOUT, TOP

from .checking import Checker
from .test_hostile_engines import ENDED, START

RULE = "an engine answers in time: does it flush each answer, and end it with an empty line?"
NOTE = "gtp_check: no answer for 60 seconds, and no limit: see --timeout and --start-timeout\n"
# an engine that answers each command by a success without a text
ANSWERS = """\
import fcntl, os, subprocess, sys, time
def answers():
    for line in sys.stdin:
        yield line.split()[1]
        print("=" + line.split()[0] + "\\n", flush=True)
"""


def planned(plan: str, folder: Path) -> str:
    """Returns the command of an engine that misbehaves by this plan."""
    return " ".join(Planned(1, 1, "<reply>", plan).command(str(folder / "started")))


def scripted(text: str, folder: Path) -> str:
    """Returns the command of an engine with this script, which can use that of ANSWERS."""
    script = folder / "engine.py"
    script.write_text(ANSWERS + text)
    return f"{sys.executable} -S {script}"


class Late(NamedTuple):
    """An engine that is late, and the command that it doesn't answer in time."""

    name: str
    plan: str
    options: Sequence[str]
    command: str
    limit: str


HANGING = [
    Late("at its first command", "*/c1//shuts", ["--timeout", "1"], "1 name", "1 second"),
    Late("at a play", "*/p1//shuts", ["--timeout", "2"], "10 play b E5", "2 seconds"),
    Late("in an answer", "*/u1/<reply:2>/shuts", ["--timeout", "1"], "11 undo", "1 second"),
    Late("at its start", "*/0//shuts", ["--start-timeout", "1"], "1 name", "1 second"),
]


@pytest.mark.parametrize("late", HANGING, ids=[late.name for late in HANGING])
def test_engine_that_hangs_is_lost(late: Late, checker: Checker, tmp_path: Path) -> None:
    begun = time.monotonic()
    check = checker.check(planned(late.plan, tmp_path), *START, *late.options)
    assert time.monotonic() - begun >= int(late.limit.split()[0])
    (complaint,) = check.report.complaints
    assert (check.status, check.errors) == (1, "")
    assert (complaint.command, complaint.fault) == (late.command, f"no answer in {late.limit}")
    assert complaint.right == RULE


def test_limit_is_of_each_answer(checker: Checker, tmp_path: Path) -> None:
    # Eight answers take four seconds. What is wrong is the play off the board, which it accepts.
    engine = scripted("for name in answers(): time.sleep(0.5)", tmp_path)
    check = checker.check(engine, "--only", "start", "--restarts", "0", "--timeout", "3")
    assert [complaint.command for complaint in check.report.complaints] == ["12 play w F1"]


@pytest.mark.parametrize(
    "options, fault",
    [
        (["--timeout", "3", "--start-timeout", "60"], "it was accepted"),
        (["--timeout", "60", "--start-timeout", "1"], "no answer in 1 second"),
        (["--timeout", "2"], "no answer in 2 seconds"),
    ],
)
def test_first_answer_has_a_limit_of_its_own(
    options: Sequence[str], fault: str, checker: Checker, tmp_path: Path
) -> None:
    engine = scripted("time.sleep(5)\nfor name in answers(): pass", tmp_path)
    check = checker.check(engine, *START, *options)
    assert [complaint.fault for complaint in check.report.complaints] == [fault]


def test_quit_has_the_limit_too(checker: Checker, tmp_path: Path) -> None:
    # All but `quit` goes to an engine of ours. The lesson has three starts.
    engine = scripted(
        "ours = subprocess.Popen(['gtp_engine'], stdin=subprocess.PIPE)\n"
        "for line in sys.stdin.buffer:\n"
        "    if line.endswith(b'quit\\n'): time.sleep(1000)\n"
        "    ours.stdin.write(line)\n"
        "    ours.stdin.flush()\n",
        tmp_path,
    )
    begun = time.monotonic()
    check = checker.check(engine, "--only", "start", "--timeout", "1")
    assert time.monotonic() - begun >= 3
    assert (check.status, check.errors, check.report.starts) == (0, "", 3)


def test_engine_whose_child_holds_its_output(checker: Checker, tmp_path: Path) -> None:
    engine = scripted(
        "for name in answers():\n"
        "    if name == 'undo':\n"
        "        subprocess.Popen(['sleep', '1000'], stdin=0, stderr=subprocess.DEVNULL)\n"
        "        os._exit(3)\n",
        tmp_path,
    )
    with checker.start(engine, *START, stdout=PIPE, stderr=DEVNULL) as process:
        output, _ = process.communicate(timeout=TIMEOUT)
    assert process.returncode == 1
    assert f'# 1 start: "11 undo": {ENDED}exit status 3\n' in output


def test_engine_that_does_not_read_its_input(checker: Checker, tmp_path: Path) -> None:
    # It writes all its right answers at once. Its input has room for some 300 commands.
    lesson = ["--only", "captures", "--size", "5", "--restarts", "0", "--trials", "0"]
    answers, recorded = tmp_path / "answers", tmp_path / "tee"
    recorded.write_text(f"#!/bin/sh\ngtp_engine | tee {answers}\n")
    recorded.chmod(0o755)
    assert checker.check(str(recorded), *lesson).status == 0
    engine = scripted(
        "fcntl.fcntl(0, 1031, 4096)\n"  # F_SETPIPE_SZ, which Python 3.9 has no name for
        f"os.write(1, open({str(answers)!r}, 'rb').read()[:60000])\n"
        "time.sleep(1000)",
        tmp_path,
    )
    check = checker.check(engine, *lesson, "--timeout", "2")
    assert [complaint.fault for complaint in check.report.complaints] == ["no answer in 2 seconds"]
    assert 200 <= check.report.commands <= 600


@pytest.fixture(scope="session")
def quick_poll(tmp_path_factory: pytest.TempPathFactory) -> Path:
    """Returns the path of a library that is loaded into programs, whose polls are short."""
    library = tmp_path_factory.mktemp("quick") / "quick_poll.so"
    source = TOP / "tests/shared/quick_poll.c"
    subprocess.run(["cc", "-O1", "-shared", "-fPIC", "-o", library, source], check=True)
    return library


def test_long_wait_without_a_limit_is_noted(
    checker: Checker, quick_poll: Path, tmp_path: Path
) -> None:
    # Its two answers to each start take as long as a hundred times these seconds.
    engine = scripted(
        "names = answers()\nnext(names)\ntime.sleep(1)\nnext(names)\ntime.sleep(1)\nos._exit(0)",
        tmp_path,
    )
    quick = checker._replace(environment={**checker.environment, "LD_PRELOAD": str(quick_poll)})
    assert quick.check(engine, *START).errors == NOTE
    assert quick.check(engine, *START, "--timeout", "1000").errors == ""
    assert quick.check(engine, *START, "--start-timeout", "1000").errors == NOTE
    assert checker.check(engine, *START).errors == ""
