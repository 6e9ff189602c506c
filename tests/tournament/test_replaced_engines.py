"""The files of an engine's command are known by their sums; one that is replaced is reported."""
from __future__ import annotations

import hashlib
import json
import os
from pathlib import Path
from typing import List

import pytest

from .runner import Runner, engines

SCRIPT = "exec gtp_engine --policy random --seed $1"
OTHER = "exec gtp_engine --policy random --seed 5$1"
SMALL = ["--jobs=1", "--", "--size=3", "--komi=1"]


def play(runner: Runner, seeds: int, command: str = "./one.sh %s", *words: str) -> List[str]:
    """Plays so many seeds, and returns what is reported of files."""
    both = engines(one=command, two="gtp_engine --policy random --seed 9%s")
    done = runner.tournament("play", "all", *both, f"--seeds={seeds}", *words, *SMALL)
    assert done.status == 0
    return [line for line in done.errors.splitlines() if "replaced" in line]


def files(runner: Runner) -> List[List[str]]:
    """Returns what is known of the files of `one`."""
    text = (runner.folder / "all/tried" / os.uname().nodename / "files").read_text()
    rows = [line.split("\t") for line in text.splitlines()]
    return [row[1:] for row in rows if row[0] == "one"]


def row(place: Path, game: str) -> List[str]:
    """Returns what is to be known of a file before a game."""
    found, digest = place.stat(), hashlib.sha256(place.read_bytes()).hexdigest()
    return [str(found.st_size), str(found.st_mtime_ns), digest, game, str(place)]


def replaced(place: Path, game: str) -> str:
    """Returns what is said of a file that was replaced before a game."""
    host = os.uname().nodename
    where = f"one: {place} was replaced on {host}"
    return f"{where}: another one played {game} and what began later"


TO_PLAY = "; tournament list --replaced names 2 games of the one before"


def listed(runner: Runner) -> List[str]:
    """Returns the games of files that were replaced."""
    return runner.tournament("list", "all", "--replaced").output.split()


@pytest.mark.parametrize("words", [[], ["--direct"]], ids=["with between", "direct"])
def test_replaced_script(words: List[str], runner: Runner) -> None:
    place = runner.script("one.sh", SCRIPT)
    assert play(runner, 1, "./one.sh %s", *words) == []
    before = row(place, "1_one_two")
    assert files(runner) == [before]
    assert "replaced" not in runner.tally("all").output
    runner.script("one.sh", OTHER)
    (line,) = play(runner, 2, "./one.sh %s", *words)
    assert line == f"tournament: {replaced(place, '2_one_two')}"
    assert files(runner) == [before, row(place, "2_one_two")]
    assert play(runner, 3, "./one.sh %s", *words) == []  # it is said once
    assert f"\n  {replaced(place, '2_one_two')}{TO_PLAY}\n" in runner.tally("all").output
    (found,) = json.loads(runner.tally("all", "--json").output)["replaced"]
    host = os.uname().nodename
    games = ["1_one_two", "1_two_one"]
    seen = {"engine": "one", "path": str(place), "host": host, "game": "2_one_two"}
    assert (found.pop("games"), found) == (games, seen)
    assert listed(runner) == games
    for game in games:
        (runner.folder / "all/games" / game).unlink()
    assert play(runner, 3, "./one.sh %s", *words) == []
    assert ("replaced" in runner.tally("all").output, listed(runner)) == (False, [])


def test_old_file_is_back(runner: Runner) -> None:
    place = runner.script("one.sh", SCRIPT)
    play(runner, 1)
    runner.script("one.sh", OTHER)
    play(runner, 2)
    runner.script("one.sh", SCRIPT)
    (line,) = play(runner, 3)
    assert line == f"tournament: {replaced(place, '3_one_two')}"
    # those of seed 1 are of the file that is back
    assert listed(runner) == ["2_one_two", "2_two_one"]
    assert f"\n  {replaced(place, '3_one_two')}{TO_PLAY}\n" in runner.tally("all").output
    for game in listed(runner):
        (runner.folder / "all/games" / game).unlink()
    assert play(runner, 3) == []
    assert ("replaced" in runner.tally("all").output, listed(runner)) == (False, [])


def test_games_of_a_replaced_file_that_are_not_known(runner: Runner) -> None:
    place = runner.script("one.sh", SCRIPT)
    play(runner, 1)
    runner.script("one.sh", OTHER)
    play(runner, 2)
    (runner.folder / "all/games/2_one_two").unlink()  # which says since when
    assert f"\n  {replaced(place, '2_one_two')}\n" in runner.tally("all").output
    assert listed(runner) == []


def test_file_with_the_same_bytes_is_not_another(runner: Runner) -> None:
    place = runner.script("one.sh", SCRIPT)
    play(runner, 1)
    os.utime(place, (1000, 1000))
    assert play(runner, 2) == []
    assert "replaced" not in runner.tally("all").output
    first, second = files(runner)
    assert (first[2], second[1:4]) == (second[2], [str(1000 * 10**9), first[2], "2_one_two"])


@pytest.mark.parametrize("option", ["net.txt", "--net=net.txt"])
def test_replaced_network(option: str, runner: Runner) -> None:
    command = f"bash -c 'exec gtp_engine --policy random --seed %s' {option}"
    place = runner.write("net.txt", "weights")
    play(runner, 1, command)
    place.write_text("other")
    (line,) = play(runner, 2, command)
    assert line == f"tournament: {replaced(place, '2_one_two')}"


def test_program_of_an_engine_with_an_environment(runner: Runner) -> None:
    (runner.folder / "bin").mkdir()
    place = runner.script("bin/one.sh", SCRIPT)
    runner.environment["PATH"] = f"{place.parent}:{runner.environment['PATH']}"
    play(runner, 1, "env LEVEL=1 one.sh %s")  # as a plan in a file has it
    runner.script("bin/one.sh", OTHER)
    (line,) = play(runner, 2, "env LEVEL=1 one.sh %s")
    assert line == f"tournament: {replaced(place, '2_one_two')}"


def test_engine_that_is_replaced_in_a_run(runner: Runner) -> None:
    runner.script("one.sh", f'[ "$1" != 2 ] || mv other.sh one.sh\n{SCRIPT}')
    runner.script("other.sh", OTHER)
    (line,) = play(runner, 3)
    assert line.endswith("another one played 2_two_one and what began later")


def test_engine_that_never_played_is_replaced_without_a_word(runner: Runner) -> None:
    place = runner.script("one.sh", "exit 3")
    both = engines(one="./one.sh %s", two="gtp_engine")
    runner.tournament("plan", "all", *both, "--", "--size", "3", "--komi", "1")
    runner.pass_trials("all")
    assert runner.tournament("game", "all", "1_one_two").status == 1
    runner.script("one.sh", SCRIPT)
    assert runner.tournament("game", "all", "1_one_two")[::2] == (0, "")
    assert files(runner) == [row(place, "1_one_two")]


def test_log_that_an_engine_writes_is_no_part_of_it(runner: Runner) -> None:
    place = runner.script("one.sh", 'echo started >> "$2"\n' + SCRIPT)
    assert play(runner, 2, "./one.sh %s own.log") == []
    assert play(runner, 3, "./one.sh %s own.log") == []
    assert (runner.folder / "own.log").read_text().count("started") == 7  # its trial, and six games
    assert "replaced" not in runner.tally("all").output
    known = [(digest, Path(path).name) for _, _, digest, _, path in files(runner)]
    assert known == [("written", "own.log"), (row(place, "")[2], "one.sh")]
