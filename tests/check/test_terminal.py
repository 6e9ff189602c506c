"""What gtp_check writes of its progress if its standard error is a terminal.

A pseudo-terminal has what is waited for, each time instead of the line before, and nothing at the
end. The output is the same as to a pipe, and is whole where it goes to the same terminal.
"""
from __future__ import annotations

import os
import pty
import re
from pathlib import Path
from typing import List, NamedTuple, Sequence

import pytest

from tests.shared.processes import wait_until

from .checking import OURS, WRONG, Checker, only
from .test_hostile_engines import SILENT

CLEAR = "\x1b[K"
WAITS = re.compile(r'waits for "\d+ [^"]*", [a-z]+ \(\d+ of \d+\), \d+ commands?, \d+ starts?')
LOOKS = "looking for a shorter conversation"
COLUMNS = 79


class OnTerminal(NamedTuple):
    """What a check has written, with a terminal as its standard error, and its status."""

    status: int
    output: str
    sent: str  # to the terminal


def read_terminal(master: int) -> str:
    """Returns what the terminal was sent next, or nothing once no process has it open."""
    try:
        return os.read(master, 65536).decode("latin-1")
    except OSError:
        return ""


def check_on_terminal(
    checker: Checker, folder: Path, engine: str, options: Sequence[str], output_too: bool = False
) -> OnTerminal:
    """Returns what comes of a check whose standard error, or both outputs, are a terminal."""
    master, slave = pty.openpty()
    with open(folder / "output", "w") as file:
        streams = {"stdout": slave if output_too else file, "stderr": slave}
        with checker.start(engine, *options, **streams) as process:
            os.close(slave)
            sent = "".join(iter(lambda: read_terminal(master), ""))
            status = process.wait()
    os.close(master)
    return OnTerminal(status, (folder / "output").read_text("latin-1"), sent)


def shown(sent: str) -> List[str]:
    """Returns the lines that a terminal shows of what it was sent."""
    lines, line, column = [], "", 0
    for part in re.findall(r"\x1b\[K|.", sent, flags=re.DOTALL):
        if part == CLEAR:
            line = line[:column]
        elif part == "\r":
            column = 0
        elif part == "\n":
            lines.append(line)
            line, column = "", 0
        else:
            line = line[:column] + part + line[column + 1 :]
            column += 1
    return [*lines, line]


def is_progress(text: str) -> bool:
    """Tells whether a text that a terminal is sent is one of the progress, or clears it."""
    text = text.removesuffix(CLEAR)
    is_cut = len(text) == COLUMNS and text.startswith("waits for")
    return len(text) <= COLUMNS and (text in ("", LOOKS) or bool(WAITS.fullmatch(text)) or is_cut)


@pytest.mark.parametrize(
    "engine, options, is_right",
    [
        pytest.param(OURS, only("start", "komi", "games"), True, id="a right engine"),
        pytest.param(
            f"{WRONG}/engine --bug sign_is_lost",
            ["--restarts", "1", "--only", "komi", "--singly", "--trials", "6"],
            False,
            id="a wrong engine, one command at a time",
        ),
    ],
)
def test_output_is_the_same_and_progress_is_shown(
    engine: str, options: Sequence[str], is_right: bool, checker: Checker, tmp_path: Path
) -> None:
    options = ["--seed", "5", *options]
    plain = checker.check(engine, *options)
    status, output, sent = check_on_terminal(checker, tmp_path, engine, options)
    assert (status, output, plain.errors) == (plain.status, plain.output, "")
    first, *texts = sent.split("\r")
    assert first == "" and texts[-1] == CLEAR and sent.count("waits for") >= 10
    assert [text for text in texts if not (text.endswith(CLEAR) and is_progress(text))] == []
    assert is_right == (LOOKS not in sent)
    status, _, sent = check_on_terminal(checker, tmp_path, engine, options, output_too=True)
    assert (status, shown(sent)) == (plain.status, plain.output.split("\n"))


def test_silent_engine_is_waited_for(checker: Checker, tmp_path: Path) -> None:
    master, slave = pty.openpty()
    sent = ""

    def is_said() -> bool:
        nonlocal sent
        sent += read_terminal(master)
        return len(sent) >= len(wanted)

    wanted = f'\rwaits for "1 name", start (1 of 1), 1 command, 1 start{CLEAR}'
    with open(tmp_path / "output", "w") as file:
        engine = SILENT.command(tmp_path)
        with checker.start(engine, *SILENT.options, stdout=file, stderr=slave) as process:
            os.close(slave)
            assert wait_until(is_said)
            assert (sent, process.poll()) == (wanted, None)
    os.close(master)
    assert (tmp_path / "output").read_text() == ""


def test_engine_that_is_not_started(checker: Checker, tmp_path: Path) -> None:
    options = ["--only", "start"]
    gone = checker.check("./no_such_engine", *options)
    found = check_on_terminal(checker, tmp_path, "./no_such_engine", options)
    errors = "\r" + CLEAR + gone.errors.replace("\n", "\r\n")
    assert found == (gone.status, gone.output, errors)
