"""tournament export, of games that were played, and as other programs read it."""
from __future__ import annotations

import json
import os
import re
import shutil
from pathlib import Path
from typing import NamedTuple, Set

import pytest

from tests.shared.processes import run

from .exported import write_games
from .runner import TWO, Played, Runner

# ---- what is known of games that were played


def test_machine_versions_and_times(small: Played) -> None:
    runner = small.runner
    output = runner.tournament("export", "all", "--jsonl").output
    rows = [json.loads(line) for line in output.splitlines()]
    assert len(rows) == 8
    twogtp = runner.run("twogtp", "--version").output.split(" ", 1)[1].strip()
    answers = run(["gtp_engine"], "name\nversion\n", env=runner.environment).stdout
    engine = " ".join(answers.replace("= ", "").split())
    for row in rows:
        assert row["host"] == os.uname().nodename
        assert row["twogtp_version"] == twogtp
        assert row["black_version"] == row["white_version"] == engine
        assert row["opening"] is None
        assert isinstance(row["black_seconds"], float) and isinstance(row["white_seconds"], float)


# ---- PGN by pgn-extract


def test_pgn_extract_finds_the_games_of_each_result(runner: Runner) -> None:
    extract = shutil.which("pgn-extract", path=f"{os.environ['PATH']}:/usr/games")
    if extract is None:
        pytest.skip("there is no pgn-extract (apt-get install pgn-extract)")
    write_games(runner)
    games = runner.tournament("export", "all", "--pgn", "--abandoned", "loses").output
    runner.write("all.pgn", games)
    done = runner.run(extract, "-r", "all.pgn")
    assert done.status == 0
    assert "8 games matched" in done.errors
    assert sum(done.errors.count(f" all {host} ") for host in ("far", "?")) == 8
    for result, count in (("0-1", 3), ("1-0", 2), ("1/2-1/2", 1), ("*", 2)):
        runner.write("tags", f'Result "{result}"\n')
        found = runner.run(extract, "-s", "-ttags", "all.pgn").output
        assert found.count("[Event ") == count, result
    runner.write("tags", 'White "a"\nResult "1-0"\n')
    found = runner.run(extract, "-s", "-ttags", "all.pgn").output
    assert re.findall(r'Verdict "(.*)"', found) == ["W+R"]


# ---- SGF by GNU Go


class Position(NamedTuple):
    """A position at the end of a game."""

    black: Set[str]
    white: Set[str]
    captures: "tuple[str, str]"
    size: int


def shown(text: str) -> Position:
    """Returns the position that twogtp shows."""
    rows = re.findall(r"^ *([.XO](?: [.XO])*) +(\d+)$", text, re.MULTILINE)
    columns = "ABCDEFGHJKLMNOPQRSTUVWXYZ"
    points = [
        (stone, f"{column}{row}")
        for stones, row in rows
        for column, stone in zip(columns, stones.split())
    ]
    black, white = ({point for stone, point in points if stone == mark} for mark in "XO")
    captures = re.search(r"captures B (\d+) W (\d+)", text)
    assert captures
    return Position(black, white, (captures[1], captures[2]), len(rows))


def read_by_gnugo(record: Path) -> Position:
    """Returns the position that GNU Go has at the end of a record, whose komi is 7.5."""
    asked = ["list_stones black", "list_stones white", "captures black", "captures white"]
    commands = [f"loadsgf {record}", *asked, "query_boardsize", "get_komi", "quit", ""]
    done = run(["/usr/games/gnugo", "--mode", "gtp"], "\n".join(commands))
    answers = [answer.strip().lstrip("= ") for answer in done.stdout.split("\n\n")]
    _, black, white, by_black, by_white, size, komi, *_ = answers
    assert float(komi) == 7.5
    return Position(set(black.split()), set(white.split()), (by_black, by_white), int(size))


@pytest.mark.gnugo
@pytest.mark.parametrize(
    "size, handicap",
    [(5, 0), (7, 4), (9, 0), (9, 5), (13, 9), (19, 0), (19, 2), (19, 7)],
)
def test_gnugo_has_the_same_position(size: int, handicap: int, runner: Runner) -> None:
    board = ["--size", size, "--handicap", handicap, "--komi", "7.5", "--max-moves", "150"]
    runner.tournament("play", "all", *TWO, "--seeds", "2", "--", *board, "--show")
    runner.tournament("export", "all", "--sgf", "records")
    games = runner.games()
    assert len(games) == 4
    for name, text in games.items():
        place = runner.folder / f"records/{name}.sgf"
        position = shown(text)
        assert position.size == size
        assert read_by_gnugo(place) == position
        record = place.read_text()
        stones = re.search(r"AB((?:\[\w\w\])*)", record)
        assert (f"HA[{handicap}]" in record) == (handicap > 0)
        assert (stones[1].count("[") if stones else 0) == handicap
