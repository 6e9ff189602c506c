"""tournament/patience stands between a controller and an engine, and ends one whose answer is late.

Every time here is far from the limit that it is held against. An engine writes the numbers of its
processes into a file, and in the end none of them may be there.
"""
from __future__ import annotations

import os
import signal
import sys
import time
from pathlib import Path
from subprocess import PIPE, CompletedProcess
from typing import Any, List, NamedTuple, Sequence

import pytest

from tests.shared.processes import TIMEOUT, TOP, process_tree, run, wait_until

PATIENCE = str(TOP / "tournament/patience")
LONG = "100"  # seconds that nothing here takes
SHORT = "3"  # seconds in which an engine that doesn't wait answers
ECHO = """\
import sys, time
for line in sys.stdin:
    word = next((it for it in line.split("#")[0].split() if it[0].isalpha()), "")
    if not word:
        continue
    time.sleep(float(word[4:]) if word.startswith("wait") else 0)
    print(f"= {word}\\n", flush=True)
    if word == "quit":
        break
"""
SILENT_AT_QUIT = ["sh", "-c", 'read x; printf "=\\n\\n"; read x; sleep 60']


def patience(*words: object, text: str = "") -> CompletedProcess[str]:
    """Returns what comes of patience with these words, which reads this text."""
    return run([PATIENCE, *words], text)


def late(command: str) -> str:
    """Returns what patience says of a command whose answer is late."""
    return f"patience: no answer in time to '{command}'\n"


@pytest.fixture
def engine(tmp_path: Path) -> List[str]:
    """Returns the command of an engine that answers by a command's word, after so many seconds."""
    place = tmp_path / "engine.py"
    place.write_text(ECHO)
    return [sys.executable, "-S", str(place)]


# ---- what goes through


def test_conversation_is_the_same_as_without_it(gtp_engine: Path) -> None:
    text = "# a game\n\n1 boardsize 9\nplay b D4\n2 genmove w\n\x01\t\nshowboard\n7 no # x\nquit\n"
    alone, between = run([gtp_engine], text), patience(LONG, gtp_engine, text=text)
    assert between.stdout == alone.stdout != ""
    assert (between.returncode, between.stderr) == (alone.returncode, alone.stderr)


def test_long_command_and_long_answer_go_through() -> None:
    text = 300_000 * "x" + "\n\n"
    done = patience(LONG, "cat", text=text)
    assert (done.returncode, done.stdout) == (0, text)


@pytest.mark.parametrize(
    "command, status",
    [
        pytest.param(["sh", "-c", "exit 3"], 3, id="the engine's"),
        pytest.param(["sh", "-c", "kill -SEGV $$"], 128 + signal.SIGSEGV, id="a signal"),
        pytest.param(["/nowhere/engine"], 127, id="no such program"),
        pytest.param([TOP], 126, id="no program"),
    ],
)
def test_status(command: Sequence[object], status: int) -> None:
    assert patience(LONG, *command).returncode == status


@pytest.mark.parametrize(
    "words",
    [
        [],
        ["5"],
        ["soon", "cat"],
        ["--start", "5"],
        ["--start", "x", "5", "cat"],
        ["0", "cat"],
        ["-1", "cat"],
        ["nan", "cat"],
        ["inf", "cat"],
        ["--start", "0", "5", "cat"],
        ["--start", "-1", "5", "cat"],
    ],
    ids=" ".join,
)
def test_usage_error(words: List[str]) -> None:
    done = patience(*words)
    assert done.returncode == 2
    assert done.stderr.count("patience: write patience [--start SECONDS]") == 1


# ---- what is late


@pytest.mark.parametrize(
    "text, named",
    [
        pytest.param("4 wait60 x\nname\n", "4 wait60 x", id="the first"),
        pytest.param("name\nwait60 x\nname\n", "wait60 x", id="a middle one"),
        pytest.param("name\nname\nwait60 x\n", "wait60 x", id="the last"),
    ],
)
def test_late_answer_ends_the_engine(engine: List[str], text: str, named: str) -> None:
    done = patience(SHORT, *engine, text=text)
    assert (done.returncode, done.stderr) == (124, late(named))


def test_late_end_after_quit() -> None:
    done = patience(SHORT, *SILENT_AT_QUIT, text="name\nquit\n")
    assert (done.returncode, done.stderr) == (124, late("quit"))


def test_first_answer_may_take_longer(engine: List[str]) -> None:
    done = patience("--start", LONG, SHORT, *engine, text="wait4 a\nname\nwait60 b\n")
    assert (done.returncode, done.stdout.count("\n\n")) == (124, 2)
    assert done.stderr == late("wait60 b")


def test_first_answer_has_a_limit_too(engine: List[str]) -> None:
    done = patience("--start", "1", LONG, *engine, text="wait60 a\n")
    assert (done.returncode, done.stderr) == (124, late("wait60 a"))


def test_greeting_is_no_answer() -> None:
    greeting = 'printf "Hello\n\n"; read x; sleep 4; printf "=\n\n"; read x; sleep 60'
    command = [PATIENCE, "--start", LONG, SHORT, "sh", "-c", greeting]
    with process_tree(command, stdin=PIPE, stdout=PIPE, stderr=PIPE) as process:
        assert process.stdout is not None
        assert process.stdout.read(7) == b"Hello\n\n"
        output, errors = process.communicate(b"name\nversion\n")
    assert (output, errors.decode()) == (b"=\n\n", late("version"))
    assert process.returncode == 124


def test_command_in_pieces_is_late_once_its_line_has_ended(engine: List[str]) -> None:
    command = [PATIENCE, "--start", LONG, SHORT, *engine]
    with process_tree(command, stdin=PIPE, stdout=PIPE, stderr=PIPE) as process:
        assert process.stdin is not None and process.stdout is not None
        for piece in (b"na", b"me\nwai", b"t60 x"):
            os.write(process.stdin.fileno(), piece)
            time.sleep(0.1)
        assert process.stdout.read(8) == b"= name\n\n"
        output, errors = process.communicate(b"\n")
    assert (output, errors.decode()) == (b"", late("wait60 x"))


def test_engine_that_reads_no_more_is_late() -> None:
    closing = "exec 0<&-; printf 'Hello\\n\\n'; sleep 200"
    command = [PATIENCE, SHORT, "sh", "-c", closing]
    with process_tree(command, stdin=PIPE, stdout=PIPE, stderr=PIPE) as process:
        assert process.stdout is not None
        assert process.stdout.read(7) == b"Hello\n\n"
        output, errors = process.communicate(b"name\n", timeout=TIMEOUT)
    assert (output, errors.decode(), process.returncode) == (b"", late("name"), 124)


def test_end_of_the_output_comes_at_once() -> None:
    command = [PATIENCE, LONG, "sh", "-c", "exec 1>&-; sleep 200"]
    with process_tree(command, stdin=PIPE, stdout=PIPE, stderr=PIPE) as process:
        assert process.stdin is not None and process.stdout is not None
        process.stdin.write(b"name\n")
        process.stdin.flush()
        assert process.stdout.read() == b""
        assert process.poll() is None


def test_time_of_an_answer_begins_with_the_end_of_the_one_before(engine: List[str]) -> None:
    # 6 seconds in all, and an empty line isn't waited for
    text = "name\nwait2 a\nwait2 b\nwait2 c\n# wait\n\n \t\x01\nquit\n"
    done = patience("--start", LONG, "5", *engine, text=text)
    assert (done.returncode, done.stderr) == (0, "")


# ---- nothing is left


class Processes(NamedTuple):
    """The command of an engine, and the file to which its processes write their numbers."""

    command: List[str]
    numbers: Path

    def left(self) -> List[str]:
        """Returns which of its processes are there."""
        numbers = self.numbers.read_text().split() if self.numbers.exists() else []
        return [number for number in numbers if Path(f"/proc/{number}").exists()]

    def have_ended(self) -> bool:
        """Waits for the end of its processes, and tells whether they have ended."""
        return wait_until(lambda: not self.left(), TIMEOUT)


@pytest.fixture
def stubborn(tmp_path: Path) -> Processes:
    """Returns an engine that ignores TERM, and whose two children hold its output.

    One of them is in a session of its own. It answers one command.
    """
    numbers = tmp_path / "numbers"
    text = f"""\
trap '' TERM HUP INT
setsid sh -c 'echo $$ >> {numbers}; trap "" TERM; sleep 200; sleep 200' &
sh -c 'echo $$ >> {numbers}; sleep 200; sleep 200' &
echo $$ >> {numbers}
while [ $(wc -l < {numbers}) -lt 3 ]; do sleep 0.05; done
printf '=\\n\\n'
read x; read x; sleep 200; sleep 200"""
    return Processes(["sh", "-c", text], numbers)


def test_nothing_is_left_of_a_late_engine(stubborn: Processes) -> None:
    done = patience("--start", LONG, "1", *stubborn.command, text="name\nname\n")
    assert done.returncode == 124
    assert stubborn.have_ended()


def test_nothing_is_left_of_an_engine_that_has_ended(tmp_path: Path) -> None:
    numbers = tmp_path / "numbers"
    child = f"sh -c 'echo $$ > {numbers}; sleep 200; sleep 200' &"
    engine = ["sh", "-c", f"{child} while [ ! -s {numbers} ]; do sleep 0.05; done; exit 7"]
    assert patience(LONG, *engine).returncode == 7
    assert Processes(engine, numbers).have_ended()


def child_of(process: int) -> int:
    """Returns the first child of a process."""
    return int(Path(f"/proc/{process}/task/{process}/children").read_text().split()[0])


def heed_signals() -> None:
    """Has these signals end the process, also where a shell or nohup has them ignored."""
    for number in (signal.SIGINT, signal.SIGHUP, signal.SIGTERM):
        signal.signal(number, signal.SIG_DFL)


@pytest.mark.parametrize(
    "whom, number, status",
    [
        ("patience", signal.SIGKILL, -signal.SIGKILL),
        ("patience", signal.SIGTERM, -signal.SIGTERM),
        ("patience", signal.SIGHUP, -signal.SIGHUP),
        ("patience", signal.SIGINT, 128 + signal.SIGINT),
        ("its guard", signal.SIGKILL, 128 + signal.SIGKILL),
        ("its engine", signal.SIGKILL, 128 + signal.SIGKILL),
    ],
)
def test_nothing_is_left_where_one_is_killed(
    stubborn: Processes, whom: str, number: signal.Signals, status: int
) -> None:
    command = [PATIENCE, LONG, *stubborn.command]
    streams: Any = {"stdin": PIPE, "stdout": PIPE, "stderr": PIPE, "preexec_fn": heed_signals}
    with process_tree(command, **streams) as process:
        assert process.stdin and process.stdout and process.stderr
        process.stdin.write(b"name\n")
        process.stdin.flush()
        assert process.stdout.read(3) == b"=\n\n"
        guard = child_of(process.pid)
        numbers = {"patience": process.pid, "its guard": guard, "its engine": child_of(guard)}
        os.kill(numbers[whom], number)
        assert stubborn.have_ended()
        assert (process.stderr.read(), process.wait(TIMEOUT)) == (b"", status)


@pytest.mark.parametrize("milliseconds", range(0, 100, 5))
def test_nothing_is_left_where_it_is_killed_while_it_starts(
    milliseconds: int, tmp_path: Path
) -> None:
    numbers = tmp_path / "numbers"
    engine = Processes(["sh", "-c", f"echo $$ >> {numbers}; sleep 200; sleep 200"], numbers)
    command = [PATIENCE, LONG, *engine.command]
    with process_tree(command, stdin=PIPE, stdout=PIPE, stderr=PIPE) as process:
        time.sleep(milliseconds / 1000)
        process.kill()
        process.communicate(timeout=TIMEOUT)  # the standard error ends once no process has it
        assert engine.have_ended()


def test_it_is_short() -> None:
    assert len(Path(PATIENCE).read_text().splitlines()) <= 200
