"""The script between, alone: it passes all bytes both ways, and ends as the engine ends."""
from __future__ import annotations

import os
import signal
from pathlib import Path
from subprocess import PIPE, Popen, TimeoutExpired
from typing import BinaryIO, Iterator, List, NamedTuple

import pytest

from tests.shared.processes import run

from .notes import BETWEEN, Between
from .runner import Runner

TALK = """\
# a game

1 boardsize 9
play b D4
2 genmove w
\x01\t
showboard
7 nonsense # x
undo
  3  genmove  b
"""
OVER = "between: black: the game is over\n"


def ask(process: Popen[str], text: str) -> None:
    """Writes a text to a process, whose input does not end."""
    assert process.stdin
    process.stdin.write(text)
    process.stdin.flush()


def answer(process: Popen[str]) -> str:
    """Returns the next answer of an engine that answers nothing but an equals sign."""
    assert process.stdout
    return str(process.stdout.read(3))


@pytest.mark.parametrize("end", [pytest.param("quit\n", id="quit"), pytest.param("", id="its end")])
def test_conversation_is_the_same_as_without_it(end: str, runner: Runner, gtp_engine: Path) -> None:
    Between(runner, "gtp_engine")
    alone, between = run([gtp_engine], TALK + end), run(BETWEEN, TALK + end, env=runner.environment)
    assert between.stdout == alone.stdout != ""
    assert (between.returncode, between.stderr) == (alone.returncode, alone.stderr)


def test_long_command_and_long_answer_go_through(runner: Runner) -> None:
    Between(runner, "cat")
    text = 300_000 * "x" + "\n\n"
    done = run(BETWEEN, text, env=runner.environment)
    assert (done.returncode, done.stdout) == (0, text)


# ---- how an engine ends


@pytest.mark.parametrize(
    "command, status, note",
    [
        pytest.param(
            ["sh", "-c", "read x; exit 3"], 3, "ended S: 1 name: exit status 3", id="a status"
        ),
        pytest.param(
            ["sh", "-c", "read x; kill -SEGV $$"],
            -signal.SIGSEGV,
            "ended S: 1 name: signal 11",
            id="a signal",
        ),
        pytest.param(
            ["sh", "-c", "read x; kill -KILL $$"],
            -signal.SIGKILL,
            "ended S: 1 name: signal 9",
            id="KILL",
        ),
        pytest.param(
            ["/nowhere/engine"],
            127,
            "not started: /nowhere/engine: No such file or directory",
            id="no such program",
        ),
        pytest.param(["/"], 126, "not started: /: Permission denied", id="no program"),
    ],
)
def test_it_ends_as_the_engine(command: List[str], status: int, note: str, runner: Runner) -> None:
    between = Between(runner, *command)
    assert between.run("1 name\n").status == status
    assert between.notes() == [f"0 black {note}"]


def test_directory_that_is_missing_is_noted(runner: Runner) -> None:
    between = Between(runner, "gtp_engine")
    game = runner.folder / "game"
    game.write_text(game.read_text().replace(f"folder {runner.folder}", "folder /no/where"))
    assert between.run("1 name\n").status == 127
    assert between.notes() == ["0 black not started: /no/where: No such file or directory"]


def test_output_that_an_engine_closes_ends_at_once(runner: Runner) -> None:
    between = Between(runner, "sh", "-c", "exec 1>&-; sleep 1000")
    process = between.start()
    ask(process, "1 name\n")
    assert process.stdout and process.stdout.read() == ""
    assert process.poll() is None
    assert between.notes() == ["0 black ended S: 1 name: its output ended, but it ran on"]


# ---- who ends first


def test_engine_ends_with_it(runner: Runner) -> None:
    text = "trap '' TERM; while :; do read x && printf '=\\n\\n'; done"
    between = Between(runner, "sh", "-c", text)
    process = between.start()
    ask(process, "name\n")
    assert answer(process) == "=\n\n"
    for number in (signal.SIGTERM, signal.SIGINT, signal.SIGHUP):
        process.send_signal(number)
    # who asks a game to end asks twogtp and the engine too, so it ignores this
    ask(process, "name\n")
    assert answer(process) == "=\n\n"
    process.kill()
    assert runner.is_idle()
    assert between.notes() == ["0 black started S"]


class Pipe(NamedTuple):
    """A pipe in place of the process of a game: once its writer is closed, the game is over."""

    reader: BinaryIO
    writer: BinaryIO

    def part(self, off: int = 0) -> str:
        """Returns what the game's file says of it. The number of the inode may be off."""
        number = self.reader.fileno()
        return f"/proc/{os.getpid()}/fd/{number} {os.fstat(number).st_ino + off}"


@pytest.fixture
def game() -> Iterator[Pipe]:
    """Returns the pipe of a game that isn't over."""
    reader, writer = os.pipe()
    with open(reader, "rb") as first, open(writer, "wb") as second:
        yield Pipe(first, second)


@pytest.mark.parametrize(
    "text",
    [
        pytest.param(
            "printf '=\\n\\n'; setsid sleep 1000 & trap '' TERM; sleep 1000; sleep 1000",
            id="one that hangs",
        ),
        pytest.param(
            "printf '=\\n\\n'; exec 1>&-; trap '' TERM; sleep 1000; sleep 1000",
            id="one that has closed its output",
        ),
    ],
)
def test_engine_ends_with_the_process_of_the_game(text: str, runner: Runner, game: Pipe) -> None:
    between = Between(runner, "sh", "-c", text, held=game.part())
    process = between.start()
    ask(process, "name\n")
    assert answer(process) == "=\n\n"
    runner.wait_for("sleep")
    assert process.poll() is None
    game.writer.close()
    assert runner.finish(process).status == 125
    assert runner.is_idle()
    game.reader.close()
    assert between.run("name\n") == (125, "", OVER)


def test_pipe_of_another_process_is_none_of_the_game(runner: Runner, game: Pipe) -> None:
    done = Between(runner, "touch", "started", held=game.part(off=1)).run("name\n")
    assert (done.status, done.errors) == (125, OVER)
    assert not (runner.folder / "started").exists()


def test_engine_may_end_by_itself_where_twogtp_ends(runner: Runner) -> None:
    text = "read x; printf '=\\n\\n'; read x; read x; while [ ! -e go ]; do sleep 0.02; done"
    between = Between(runner, "sh", "-c", f"{text}; echo over > over")
    process = between.start()
    ask(process, "1 name\n2 genmove b\n")
    assert answer(process) == "=\n\n"
    assert process.stdin
    process.stdin.close()
    runner.wait_until(lambda: len(between.notes()) == 2)
    runner.write("go", "")
    assert process.wait() == 0
    assert (runner.folder / "over").exists()
    assert between.notes() == ["0 black started S", "1 black waited S: 2 genmove b"]


class Stop(NamedTuple):
    """An engine that ended by a signal, and then twogtp, after so many seconds at most."""

    between: Between
    seconds: float


def stop(runner: Runner) -> Stop:
    """Ends an engine by TERM, and a moment later what is in place of twogtp."""
    reader, writer = os.pipe()
    with open(reader) as stdin, open(writer, "w") as stdout:
        twogtp = runner.start("sh", "-c", "echo 1 name; exec sleep 1000", stdout=stdout)
        end = f"kill -TERM $$; sleep 0.1; kill -TERM {twogtp.pid}; date +%s.%N >> times"
        engine = f"read x; date +%s.%N > times; ({end}) > /dev/null & wait"
        between = Between(runner, "sh", "-c", engine)
        process = runner.start(*BETWEEN, stdin=stdin)
    assert runner.finish(process).status == -signal.SIGTERM
    runner.wait_until(lambda: (runner.folder / "times").read_text().count("\n") == 2)
    first, second = (runner.folder / "times").read_text().split()
    return Stop(between, float(second) - float(first))


def test_it_is_noted_who_was_waited_for_where_a_game_is_stopped(runner: Runner) -> None:
    for _ in range(50):
        stopped = stop(runner)
        if stopped.seconds < 0.4:  # on a slow machine twogtp may end too late
            break
    assert stopped.between.notes() == ["0 black waited S: 1 name"]


# ---- what keeps it from its work


def test_notes_that_cannot_be_written_are_removed(runner: Runner) -> None:
    engine = "while read x; do printf '=\\n\\n'; done; sleep 1000"
    between = Between(runner, "sh", "-c", engine)
    between.place.write_text("x" * 1023)
    limited = ["bash", "-c", 'ulimit -f 1; "$@" | cat', "bash", *BETWEEN]
    process = runner.start(*limited, stdin=PIPE)
    ask(process, "name\n" * 9)
    assert process.stderr and process.stdout
    assert process.stderr.read().startswith(f"between: black: {between.place} can't be written")
    assert process.stdout.read() == ""
    assert not between.place.exists()
    assert between.run("name\n").output == ""


def test_it_starts_nothing_without_the_file_of_a_game(runner: Runner) -> None:
    between = Between(runner, "touch", "started")
    (runner.folder / "game").unlink()
    assert between.run("") == (1, "", "between: the game is over\n")
    assert not (runner.folder / "started").exists()


# ---- what is late, and what isn't

# It answers each command after as many seconds as its last word says, and notes its start.
WAITS = """\
#!/bin/bash
echo >> starts
while read -r line; do
    number=${line%% *} seconds=${line##* }
    [[ ! $seconds =~ ^[0-9]+$ ]] || sleep "$seconds"
    [[ $number =~ ^[0-9]+$ ]] || number=
    printf '=%s\\n\\n' "$number"
    [[ $line != quit* ]] || exit 0
done
"""
LONG = "100"  # seconds that nothing here takes
SHORT = "3"  # seconds in which an engine that doesn't wait answers


@pytest.mark.parametrize(
    "text, limit, move_limit, notes",
    [
        pytest.param(
            "1 boardsize 60\n", "1", LONG, ["0 black late S: 1 boardsize 60"], id="the first answer"
        ),
        pytest.param(
            "name\n2 play b 60\n",
            SHORT,
            LONG,
            ["0 black started S", "1 black late S: 2 play b 60"],
            id="the answer to a play",
        ),
        pytest.param(
            "name\n2 genmove b 60\n",
            LONG,
            "1",
            ["0 black started S", "1 black thinks", "1 black late S: 2 genmove b 60"],
            id="a move",
        ),
        pytest.param(
            "name\nquit 60\n",
            SHORT,
            LONG,
            ["0 black started S", "1 black late S: quit 60"],
            id="quit",
        ),
    ],
)
def test_engine_that_was_late_is_not_started_again(
    text: str, limit: str, move_limit: str, notes: List[str], runner: Runner
) -> None:
    command = runner.script("waits", WAITS)
    between = Between(runner, command, limit=limit, move_limit=move_limit)
    done = between.run(text)
    said = f"between: black: no answer in time to '{text.splitlines()[-1]}'\n"
    assert (done.status, done.errors) == (124, said)
    assert between.notes() == notes
    seconds = between.place.read_text().splitlines()[-1].split()[3].rstrip(":")
    assert float(seconds) >= float(min(limit, move_limit, key=float))
    assert between.run(text) == (124, "", "between: black: it was late, and isn't started again\n")
    assert between.notes() == [*notes, "0 black stays ended"]
    assert (runner.folder / "starts").read_text() == "\n"


def test_time_of_an_answer_begins_with_the_end_of_the_one_before(runner: Runner) -> None:
    between = Between(runner, runner.script("waits", WAITS), limit="5", move_limit="5")
    done = between.run("1 a 2\n2 b 2\n3 genmove 2\nquit\n")  # 6 seconds in all
    assert done == (0, "=1\n\n=2\n\n=3\n\n=\n\n", "")
    assert between.notes() == ["0 black started S", "1 black thinks", "1 black no-vertex S"]


def test_nothing_is_due_after_the_last_answer(runner: Runner) -> None:
    between = Between(runner, "sh", "-c", "while read x; do printf '=\\n\\n'; done", limit=SHORT)
    process = between.start()
    ask(process, "name\n")
    assert answer(process) == "=\n\n"
    with pytest.raises(TimeoutExpired):
        process.wait(float(SHORT) + 1)
    ask(process, "name\n")
    assert answer(process) == "=\n\n"


def test_nothing_is_left_of_a_late_engine(runner: Runner) -> None:
    text = (
        "trap '' TERM; setsid sleep 1000 & (setsid sleep 1000 &); printf '=\\n\\n'; read x; read x"
    )
    between = Between(runner, "sh", "-c", f"{text}; sleep 1000; sleep 1000", limit="1")
    assert between.run("name\nname\n").status == 124
    assert runner.is_idle()
