"""tournament verify: each game is replayed, and what differs from its line is said."""
from __future__ import annotations

from pathlib import Path
from typing import Sequence

import pytest

from .runner import Played, Runner, engines
from .written import write_plan

# On a 3x3 board Black has the stones of the middle column, and so six points with the left one.
# White has two stones, and C3 is next to both. So it is B+4 without komi, and W+3 with a komi of 7.
MIDDLE = "moves 7 restarts 0 0\nB1 C1 B2 C2 B3 pass pass"
OF_THREE = ["option --size=3", "option --komi=7", "option --max-moves=7"]


def write(runner: Runner, lines: Sequence[str], **texts: str) -> None:
    """Writes a plan with these options, and the files of games."""
    write_plan(runner.folder / "all", "ab", 1, *lines)
    for game, text in texts.items():
        place: Path = runner.folder / "all/games" / game.lstrip("g")
        place.write_text(f"game 1: {text}\n")


def test_games_that_were_played(small: Played) -> None:
    done = small.runner.tournament("verify", "all")
    assert done == (0, "8 of 8 results are as their replay\n", "")


def test_games_with_a_handicap(runner: Runner) -> None:
    words = [*engines(one="gtp_engine --policy random --seed %s", two="gtp_engine"), "--seeds=2"]
    options = ["--size=7", "--handicap=2", "--max-moves=60"]
    assert runner.tournament("play", "all", *words, "--", *options).status == 0
    assert runner.tournament("verify", "all").output == "4 of 4 results are as their replay\n"


RIGHT = [
    f"W+3 {MIDDLE}",
    "limit moves 7 restarts 0 0\nB1 C1 B2 C2 B3 pass A1",
    "W+R moves 2 restarts 0 0\nB1 C1",
    "B+F(no move) moves 1 restarts 0 0\nB1",
    "B+F(refused play) moves 1 restarts 0 0\nB1",
    "B+F(refused play) moves 2 restarts 0 1\nB1 C1",
    "abandoned black moves 1 restarts 3 0\nB1",
    "unfit white moves 0 restarts 0 0\n",
    "W+T moves 1 restarts 0 0\nB1",
]


@pytest.mark.parametrize("text", RIGHT, ids=[text.partition(" moves")[0] for text in RIGHT])
def test_nothing_differs(text: str, runner: Runner) -> None:
    write(runner, OF_THREE, g1_a_b=text)
    assert runner.tournament("verify", "all") == (0, "1 of 1 results are as their replay\n", "")


WRONG = {
    f"B+2 {MIDDLE}": "B+2, but the score is W+3",
    f"W+3.5 {MIDDLE}": "its file is damaged",  # no board has this score with this komi
    f"W+6 {MIDDLE}": "W+6, but the score is W+3",
    f"B+R {MIDDLE}": "B+R, but the score is W+3",
    "W+2 moves 5 restarts 0 0\nB1 C1 B2 C2 B3": "W+2, but its moves don't end with two passes",
    "limit moves 3 restarts 0 0\nB1 C1 B2": "the limit is 7 moves, and not 3",
    "B+R moves 2 restarts 0 0\nB1 C1": "B+R, but the side to move is Black",
    "W+F(no move) moves 1 restarts 0 0\nB1": "W+F(no move), but the side to move is White",
    "W+4 moves 3 restarts 0 0\npass pass B1": "move 3 is behind two passes",
    "W+R moves 2 restarts 0 0\nB1 B1": "move 2: it refuses 'play white B1': '?5 illegal move'",
    "B+R moves 9 restarts 0 0\nB1 C1 B2 C2 B3 pass A1 pass A2": "the limit is 7 moves, and not 9",
}


@pytest.mark.parametrize(
    "text, said", WRONG.items(), ids=[text.partition(" moves")[0] for text in WRONG]
)
def test_what_differs_is_said(text: str, said: str, runner: Runner) -> None:
    right = f"W+3 {MIDDLE}"
    write(runner, OF_THREE, g1_a_b=text, g1_b_a=right)
    wanted = f"1_a_b: {said}\n1 of 2 results are as their replay\n"
    assert runner.tournament("verify", "all") == (1, wanted, "")


def test_without_gtp_engine(small: Played, tmp_path: Path) -> None:
    (tmp_path / "scripts").symlink_to(small.runner.environment["PATH"].split(":")[0])
    (tmp_path / "gtp_engine").write_text("no program")
    script = small.runner.run("bash", "-c", "command -v tournament").output.strip()
    done = small.runner.run(
        "bash", "-c", f"PATH={tmp_path}/scripts:/bin:/usr/bin exec python3 {script} verify all"
    )
    assert done.status == 2 and "there is no gtp_engine" in done.errors
