"""tournament/engine.py, the engine to start from: its rules are those of gtp_engine."""
from __future__ import annotations

import random
import re
from pathlib import Path
from typing import List

import pytest

from tests.shared.processes import TOP, run

from .runner import RANDOM, SCRIPTS, Runner

SAMPLE = SCRIPTS / "engine.py"


def replies(program: Path, text: str, pattern: str) -> List[str]:
    """Returns what an engine replies to commands, as far as a pattern finds it."""
    return re.findall(pattern, run([program], text).stdout, re.MULTILINE)


REPLIES = [
    "=1 ?",
    "=2 ?",
    "=3 ?",
    "=4 C3 G7",
    "=5 ?",
    "=6 ?",
    r"\?7 .+",
    "= sample",
    "=8 [A-HJ][1-9]",
    "= ?",
]


def test_replies() -> None:
    commands = "1 boardsize 9\n2 komi 6.5\n3 clear_board\n4 fixed_handicap 2\n5 play w E5\n6 undo\n"
    done = run([SAMPLE, "1"], f"{commands}7 foo\nname\n8 genmove w\nquit\n")
    assert re.fullmatch("".join(f"{reply}\n\n" for reply in REPLIES), done.stdout)
    assert (done.returncode, done.stderr) == (0, "")


@pytest.mark.parametrize("size", [1, 6, 7, 8, 9, 12, 13, 19, 25])
def test_handicaps_are_those_of_gtp_engine(size: int, gtp_engine: Path) -> None:
    text = "".join(f"boardsize {size}\nfixed_handicap {stones}\n" for stones in range(12))
    own = replies(SAMPLE, text, r"^.*\S")
    assert own == replies(gtp_engine, text, r"^.*\S")


def conversation(seed: int) -> List[str]:
    """Returns random plays and undos on a small board, most of them legal."""
    source = random.Random(seed)
    size = source.choice([2, 3, 3, 4, 5])
    points = [f"{column}{row}" for column in "ABCDE"[:size] for row in range(1, size + 1)]
    commands, colour = [f"boardsize {size}", "clear_board"], "b"
    for _ in range(source.choice([20, 60, 120])):
        if source.random() < 0.06:
            commands.append("undo")
            continue
        vertex = "pass" if source.random() < 0.05 else source.choice(points)
        commands.append(f"play {colour} {vertex}")
        colour = "w" if colour == "b" or source.random() < 0.1 else "b"
    return [f"{1000 * seed + number} {command}\n" for number, command in enumerate(commands)]


def test_same_moves_are_legal_as_in_gtp_engine(gtp_engine: Path) -> None:
    text = "".join(line for seed in range(1, 41) for line in conversation(seed))
    own, wanted = (replies(engine, text, r"^[=?]\d+") for engine in (SAMPLE, gtp_engine))
    assert own == wanted
    assert len(own) == text.count("\n")


# ---- matches

BOARDS = [
    *((1, 0), (2, 0), (3, 0), (5, 0), (7, 4), (9, 0)),
    *((9, 5), (13, 9), (19, 0), (19, 2), (25, 0)),
]


@pytest.mark.parametrize(
    "black, white",
    [
        pytest.param(f"{SAMPLE} 1", f"{RANDOM} 2", id="Black"),
        pytest.param(f"{RANDOM} 3", f"{SAMPLE} 4", id="White"),
    ],
)
@pytest.mark.parametrize(
    "size, handicap", BOARDS, ids=[f"{size}x{size}, handicap {stones}" for size, stones in BOARDS]
)
def test_whole_game(size: int, handicap: int, black: str, white: str, runner: Runner) -> None:
    options = ["--size", size, "--handicap", handicap, "--why"]
    done = runner.run("twogtp", *options, "--black", black, "--white", white)
    assert (done.status, done.errors) == (0, "")
    assert re.fullmatch(r"game 1: ([BW]\+[\d.]+|0|limit) moves \d+ restarts 0 0\n", done.output)


@pytest.mark.parametrize("kept", [0, 4, 100], ids="{} bytes of a reply are left".format)
def test_game_goes_on_after_it_was_killed(kept: int, runner: Runner) -> None:
    # its moves are other ones then, since they are those that follow the seed
    black = f"{TOP}/tests/engines/hostile/dies 9 {kept} {SAMPLE} 5"
    options = ["--size", "5", "--restarts", "9"]
    done = runner.run("twogtp", *options, "--black", black, "--white", f"{RANDOM} 6")
    assert done.status == 0
    assert re.fullmatch(r"game 1: ([BW]\+[\d.]+|0) moves \d+ restarts [1-9] 0\n", done.output)
