"""The example of an engine in steps, whose moves another program writes."""
from __future__ import annotations

from pathlib import Path
from typing import Callable

import pytest

from tests.conftest import built
from tests.shared.processes import TOP, run

Play = Callable[[str], str]

# Black has B2 and C3, White A1, and each empty point reaches both colours: 2 points to 1.
RECORD = "B2 A1 C3 pass pass\n"


@pytest.fixture
def relay_engine(programs: Path) -> Path:
    """Returns the path of the example."""
    return built(programs, "example_relay_engine")


@pytest.fixture
def play(
    relay_engine: Path, twogtp: Path, gtp_engine: Path, environment: dict[str, str], tmp_path: Path
) -> Play:
    """Returns a function that plays a game on 3x3 in which a shell script writes Black's moves.

    The script finds what White is sent in the file `sent`.
    """

    def script(name: str, text: str) -> Path:
        file = tmp_path / name
        file.write_text(f"#!/bin/sh\ncd {tmp_path}\n{text}")
        file.chmod(0o755)
        return file

    def play_script(text: str) -> str:
        white = script("white", f"tee sent | {gtp_engine} --policy book --book ,A1")
        command = [twogtp, "--size", "3", "--komi", "0", "--record"]
        command += ["--black", f"{relay_engine} {script('mover', text)}", "--white", white]
        # a file, since a mover that lives on has the output open
        with open(tmp_path / "output", "w") as output:
            done = run(command, env=environment, stdout=output, stderr=output)
        assert done.returncode == 0
        return (tmp_path / "output").read_text()

    return play_script


def test_example_is_short() -> None:
    source = TOP / "crates/example_relay_engine/src/main.rt"
    assert len(source.read_text().splitlines()) <= 60


def test_unlawful_moves_are_ignored(play: Play) -> None:
    # A1 is occupied, Z9 off the board, `hello` no move. After its last line the engine passes.
    output = play("printf 'B2\\nA1\\nZ9\\nhello\\nC3\\n'")
    assert output == f"game 1: B+1 moves 5 restarts 0 0\n{RECORD}"


def test_engine_that_is_killed_continues_in_its_next_start(play: Play) -> None:
    # The first start writes one move, and then nothing. The engine is killed once White is sent it.
    output = play(
        """\
if mkdir started 2> /dev/null; then
    echo B2
    engine=$PPID
    grep -q "^example_relay" /proc/$engine/comm || read -r _ _ _ engine _ < /proc/$engine/stat
    until grep -qs "play b B2" sent; do sleep 0.1; done
    kill -9 $engine
    exec sleep 600
fi
echo C3
"""
    )
    assert output == f"game 1: B+1 moves 5 restarts 1 0\n{RECORD}"


def test_resignation(play: Play) -> None:
    assert play("echo resign") == "game 1: W+R moves 0 restarts 0 0\n\n"


def test_own_commands_are_declined(relay_engine: Path) -> None:
    done = run([relay_engine, "true"], "1 nosuch\n2 quit\n3 name\n")
    assert done.stdout == "?1 unknown command\n\n=2\n\n"
