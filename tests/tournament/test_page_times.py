"""The times on the page of a tournament: those of moves are the tally's, and clocks are in UTC."""
from __future__ import annotations

import os
import re
from pathlib import Path

import pytest

from .browser import answer
from .html_page import Page, read
from .runner import Runner
from .written import WON, write_pairs, write_plan, write_result

HERE = "Asia/Tokyo"  # nine hours before UTC


def page_of(runner: Runner) -> Page:
    """Returns the page of the tournament `all`."""
    runner.tournament("page", "all")
    return read(runner.folder / "all/page.html")


def write_noted(folder: Path, game: str, verdict: str, moves: str, notes: str) -> None:
    """Writes a game and its notes, which begin with this text."""
    write_result(folder, game, verdict, moves)
    (folder / "notes").mkdir(exist_ok=True)
    (folder / "notes" / game).write_text(f"{game} on here\n{notes}result: {verdict}\n")


# ---- seconds a move


def test_seconds_a_move_are_the_tallys(runner: Runner) -> None:
    folder = runner.folder / "all"
    write_plan(folder, "ab", 1, "option --size=5", "option --komi=7")
    # a has 1.000, 0.400 for a move that it takes back, 0.602 and 0.013, b 0.107 and 0.309, when it
    # resigns: the seconds of either are 0.50375 and 0.208 in the mean
    notes = (
        "0 black started 0.5\n1 black A1 1.000\n2 white E5 0.107\n3 black A1 0.400\n"
        "3 black undone\n3 black A2 0.602\n4 white resign 0.309 cpu 0.2\n"
    )
    write_noted(folder, "1_a_b", "B+R moves 3 restarts 0 0", "A1 E5 A2", notes)
    notes = "1 black C3 opening\n2 white A1 0.013\n3 black failed 9.000\n"
    write_noted(folder, "1_b_a", "W+F(no move) moves 2 restarts 0 0", "C3 A1", notes)
    rows = {row[0]: row[2:] for row in page_of(runner).rows["times"][1:]}
    # moves, mean, half below, 90 % below, 99 % below, longest
    assert rows == {
        "a": ["4", "0.504", "0.400", "1.000", "1.000", "1.000"],
        "b": ["2", "0.208", "0.107", "0.309", "0.309", "0.309"],
    }
    # the tally has the games of a by their means, 0.667 and 0.013, and so apart
    lines = runner.tally("all", "--by", "time").output.splitlines()
    means = {line.split()[0]: line.split()[-2:] for line in lines[1:]}
    assert means["b"] == [rows["b"][1], rows["b"][-1]]
    assert {line.split()[-1] for line in lines if line.startswith("a ")} == {"0.013", "1.000"}


def test_quantiles_are_exact(runner: Runner) -> None:
    folder = runner.folder / "all"
    write_plan(folder, "ab", 1, "option --size=19", "option --komi=7")
    # Black's moves take 101, 102 and so on up to 200 milliseconds, and White's 10 seconds each
    vertices = [f"{column}{row}" for row in range(1, 11) for column in "ABCDEFGHJKLMNOPQRSTU"[:19]]
    seconds = [f"{0.101 + at / 2000:.3f}" if at % 2 == 0 else "10.000" for at in range(200)]
    moves = (vertices + vertices)[:200]
    notes = "".join(
        f"{at} {'white' if at % 2 == 0 else 'black'} {vertex} {taken}\n"
        for at, (vertex, taken) in enumerate(zip(moves, seconds), 1)
    )
    write_noted(folder, "1_a_b", "B+R moves 200 restarts 0 0", " ".join(moves), notes)
    rows = {row[0]: row[2:] for row in page_of(runner).rows["times"][1:]}
    assert rows["a"] == ["100", "0.150", "0.150", "0.190", "0.199", "0.200"]
    assert rows["b"] == ["100", *["10.000"] * 5]


# ---- times of the day


def test_times_are_in_utc(runner: Runner) -> None:
    write_pairs(runner.folder / "all", [WON])
    for at, name in enumerate(("1_a_b", "1_b_a")):
        os.utime(runner.folder / "all/games" / name, (7200 + 7200 * at,) * 2)
    runner.environment["TZ"] = HERE
    page = page_of(runner)
    assert re.findall("1970-01-01 ..:.. UTC", page.texts["progress"]) == [
        f"1970-01-01 {time} UTC" for time in ("02:00", "03:00", "04:00")
    ]
    assert re.search("as of [-0-9]{10} [0-9]{2}:[0-9]{2} UTC$", page.texts["state"].strip())


@pytest.mark.chromium
@pytest.mark.xdist_group("chromium")
def test_browser_has_the_same_times(runner: Runner, monkeypatch: pytest.MonkeyPatch) -> None:
    write_pairs(runner.folder / "all", [WON])
    os.utime(runner.folder / "all/games/1_a_b", (7200, 7200))
    runner.tournament("page", "all")
    monkeypatch.setenv("TZ", HERE)
    script = 'return document.querySelector("#list tbody tr").lastChild.textContent'
    assert answer(runner.folder / "all/page.html", script) == "1970-01-01 02:00"
