"""The index of a folder, which is never the truth: whatever it has, all outputs are those without
it."""
from __future__ import annotations

import os
import shutil
import zlib
from pathlib import Path
from typing import Any, Callable, List

import pytest

from .exported import GAMES, write_games
from .inside import module
from .runner import TWO, Done, Runner, engines
from .test_again import NEW, OLD, notes, result

COMMANDS = ["tally all --json --by time", "tournament export all --jsonl"]
ALL_COMMANDS = [
    *COMMANDS,
    "tally all",
    "tournament export all --csv",
    "tournament export all --pgn",
]
NOTED = ["1_a_b", "4_b_a"]  # the games with notes of their result
HOST = os.uname().nodename


def outputs(runner: Runner, commands: List[str] = COMMANDS) -> List[Done]:
    """Returns what commands print that use the index."""
    return [runner.run(*command.split()) for command in commands]


def assert_same_without_index(runner: Runner) -> None:
    """Checks that no output differs once the index is gone."""
    found = outputs(runner)
    place = runner.folder / "all/index"
    shutil.rmtree(place) if place.is_dir() else place.unlink()
    assert outputs(runner) == found


def plan_of(runner: Runner) -> Any:
    """Returns the plan."""
    return module("config.plan_file").read_plan(str(runner.folder / "all"))


def add_lines(runner: Runner) -> None:
    """Writes the index as it is where these games were played."""
    folder, plan = runner.folder / "all", plan_of(runner)
    rule = module("store.results").Rule(plan)
    for game in GAMES:
        place, noted = folder / "games" / game, folder / "notes" / game
        found = (place.stat(), rule.read(str(place)))
        read = (noted.stat(), module("store.notes").read(str(noted))) if game in NOTED else None
        module("store.index").add(str(folder), game, rule, found, read)


@pytest.fixture
def indexed(runner: Runner) -> Runner:
    """Returns what runs the scripts where a tournament has an index."""
    write_games(runner)
    add_lines(runner)
    return runner


def change(place: Path, old: str, new: str, *, has_old_time: bool = False) -> None:
    """Changes a text in a file, in its place, at another time or at the same one."""
    before = place.stat()
    text = place.read_text()
    assert old in text
    place.write_text(text.replace(old, new))
    time = before.st_mtime_ns + (0 if has_old_time else 1)
    os.utime(place, ns=(time, time))


def test_lines_count(indexed: Runner) -> None:
    # what nobody can notice: a line is taken for what the files say
    folder = indexed.folder / "all"
    before = outputs(indexed, ALL_COMMANDS)
    change(folder / "games/1_a_b", "B+5", "W+5", has_old_time=True)
    change(folder / "notes/1_a_b", "1.5", "9.5", has_old_time=True)
    change(folder / "notes/4_b_a", " late ", " left ", has_old_time=True)
    assert outputs(indexed, ALL_COMMANDS) == before
    shutil.rmtree(folder / "index")
    assert all(one != other for one, other in zip(outputs(indexed, ALL_COMMANDS), before))


def index_of(folder: Path) -> Path:
    """Returns the file of the index."""
    return folder / "index" / HOST


def replace(folder: Path) -> None:
    """Replaces a result by one of its size and time."""
    place, other = folder / "games/1_a_b", folder / "other"
    shutil.copy2(place, other)
    change(other, "B+5", "W+5", has_old_time=True)
    other.replace(place)


def play_again(folder: Path) -> None:
    """Replaces a result and its notes, as where the game was played again."""
    for kind, text in (("games", result(NEW)), ("notes", notes(NEW, "7.5", "4_b_a"))):
        (folder / kind / "4_b_a").unlink()
        (folder / kind / "4_b_a").write_text(text)


def tear(folder: Path, count: int = 9) -> None:
    """Leaves out so many bytes at the end of the index."""
    os.truncate(index_of(folder), index_of(folder).stat().st_size - count)


def tear_between(folder: Path) -> None:
    """Leaves out the middle of the index: half a line and half a later one are a line."""
    lines = index_of(folder).read_bytes().split(b"\n")
    lines[1:3] = [lines[1][:60] + lines[2][60:]]
    index_of(folder).write_bytes(b"\n".join(lines))


def shorten(folder: Path) -> None:
    """Leaves out the numbers of each line, whose sum is right."""
    lines = [line[9:].rpartition(b"\t")[0] for line in index_of(folder).read_bytes().splitlines()]
    text = b"".join(b"%08x\t%b\n" % (zlib.crc32(line), line) for line in lines)
    index_of(folder).write_bytes(text)


def share(folder: Path) -> None:
    """Gives lines to another machine, on which a game was played again, and has an old line."""
    lines = index_of(folder).read_bytes().splitlines(keepends=True)
    old = lines[0]
    replace(folder)
    index_of(folder).write_bytes(b"".join(lines[1:]))
    (folder / "index/zz").write_bytes(old + b"".join(lines[3:]))


def make_folder(folder: Path) -> None:
    """Puts a directory in the place of the file."""
    index_of(folder).unlink()
    index_of(folder).mkdir()


def make_file(folder: Path) -> None:
    """Puts a file in the place of the directory."""
    shutil.rmtree(folder / "index")
    (folder / "index").write_text("")


CHANGES: List[Callable[[Path], object]] = [
    lambda folder: None,
    lambda folder: (folder / "games/1_a_b").unlink(),
    lambda folder: change(folder / "games/1_a_b", "B+5", "W+5"),
    lambda folder: change(folder / "games/1_a_b", "B+5", "B+15", has_old_time=True),
    replace,
    lambda folder: change(folder / "games/1_a_b", "D4", "Z9"),  # it is damaged now
    lambda folder: (folder / "notes/4_b_a").unlink(),
    lambda folder: change(folder / "notes/1_a_b", "1.5", "2.5"),
    lambda folder: change(folder / "notes/4_b_a", " late ", " left "),
    lambda folder: change(folder / "notes/4_b_a", "result: ", "nothing: "),
    play_again,
    tear,
    lambda folder: tear(folder, 1),
    tear_between,
    shorten,
    share,
    lambda folder: change(folder / "plan", "komi=5", "komi=6"),
    lambda folder: change(folder / "plan", "engine b", "engine c"),
    lambda folder: index_of(folder).write_bytes(b"\0\n\n\t\t\n" + os.urandom(999)),
    make_folder,
    make_file,
]


@pytest.mark.parametrize("number", range(len(CHANGES)))
def test_outputs_are_those_without_index(number: int, indexed: Runner) -> None:
    CHANGES[number](indexed.folder / "all")
    assert_same_without_index(indexed)


# ---- what is played


def in_index(runner: Runner) -> List[str]:
    """Returns the games of the plan that have a line which counts, also of their notes."""
    plan, folder = plan_of(runner), str(runner.folder / "all")
    index = module("store.index").Index(plan, folder)
    return [name for name in plan.games() if index.result(name) and index.noted(name)]


def test_each_game_adds_its_line(runner: Runner) -> None:
    words = [*TWO, "--seeds", "2", "--", "--size", "3"]
    assert runner.tournament("play", "all", *words).status == 0
    games = ["1_one_two", "1_two_one", "2_one_two", "2_two_one"]
    assert in_index(runner) == games
    # one was killed in the middle of its line, and one behind it is played again
    last = index_of(runner.folder / "all").read_text().splitlines()[-1].split("\t")[1]
    other = games[last == games[0]]
    tear(runner.folder / "all")
    (runner.folder / "all/games" / other).unlink()
    assert runner.tournament("play", "all").status == 0
    assert in_index(runner) == [game for game in games if game not in (last, other)]
    (runner.folder / "all/games" / other).unlink()
    assert runner.tournament("play", "all").status == 0
    assert in_index(runner) == [game for game in games if game != last]
    assert_same_without_index(runner)


def test_games_that_are_played_again(runner: Runner) -> None:
    words = engines(one="gtp_engine --policy random --seed %s", two="gtp_engine")
    runner.tournament("plan", "all", *words, "--seeds", "1", "--", "--size", "3")
    for game in ("1_one_two", "1_two_one"):
        for kind, text in (("games", result(OLD)), ("notes", notes(OLD, game=game))):
            runner.write(f"all/{kind}/{game}", text)
    assert runner.tournament("play", "all", "--again").status == 0
    assert in_index(runner) == ["1_one_two", "1_two_one"]
    assert_same_without_index(runner)


def test_index_that_cannot_be_written(runner: Runner) -> None:
    words = [*TWO, "--seeds", "1", "--", "--size", "3"]
    runner.tournament("plan", "all", *words)
    runner.write("all/index", "")
    assert runner.tournament("play", "all")[::2] == (0, "")
    assert_same_without_index(runner)
