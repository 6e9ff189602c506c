"""Files that can't be read, not even by root, are as if they weren't there."""
from __future__ import annotations

import pytest

from .runner import TWO, Runner, engines
from .written import write_plan

LOOP, FOLDER = "Too many levels of symbolic links", "Is a directory"


def lines(text: str) -> "list[str]":
    """Returns the lines of a text, sorted."""
    return sorted(text.splitlines())


@pytest.fixture
def unreadable(runner: Runner) -> Runner:
    """Returns what runs the scripts where there are six results, of which two can't be read."""
    runner.tournament("play", "all", *TWO, "--seeds", "3", "--", "--size", "2")
    for name in ("1_one_two", "2_one_two"):
        (runner.folder / "all/games" / name).unlink()
    (runner.folder / "all/games/1_one_two").symlink_to("1_one_two")
    (runner.folder / "all/games/2_one_two").mkdir()
    return runner


NONE = [
    f"all/games/1_one_two can't be read, and so is no result: {LOOP}",
    f"all/games/2_one_two can't be read, and so is no result: {FOLDER}",
]


def test_list(unreadable: Runner) -> None:
    status, output, errors = unreadable.tournament("list", "all")
    assert (status, output) == (0, "1_one_two\n2_one_two\n")
    assert lines(errors) == [f"tournament: {why}" for why in NONE]


def test_tally(unreadable: Runner) -> None:
    status, output, errors = unreadable.tally("all")
    assert (status, output.splitlines()[-3:]) == (
        1,
        [
            "no result: 2",
            f"  1_one_two: its file can't be read: {LOOP}",
            f"  2_one_two: its file can't be read: {FOLDER}",
        ],
    )
    assert lines(errors) == [f"tally: {why}" for why in NONE]


def test_export(unreadable: Runner) -> None:
    status, output, errors = unreadable.tournament("export", "all", "--csv")
    assert (status, output.count("\n")) == (0, 5)
    missing = "tournament: without a result, and so not exported: 2 of 6 games"
    assert lines(errors) == sorted([*(f"tournament: {why}" for why in NONE), missing])


def test_play_and_game(unreadable: Runner) -> None:
    place = unreadable.folder / "all/games"
    why = f"{place}/2_one_two can't be read, nor be replaced: {FOLDER}"
    in_the_way = f"tournament: 2_one_two: no result: {why}"
    again = f"tournament: 1_one_two: its file can't be read: {LOOP}, and it is played again"
    status, output, errors = unreadable.tournament("play", "all")
    assert (status, lines(errors)) == (1, [again, in_the_way])
    assert output.splitlines()[-1] == "5 of 6 games have a result"
    assert (place / "1_one_two").read_text().startswith("game 1: ")
    done = unreadable.tournament("game", "all", "2_one_two")
    assert done == (1, "", f"{in_the_way}\n")
    assert unreadable.files("all/running") == {}


def test_of_very_many_the_first_are_named(runner: Runner) -> None:
    write_plan(runner.folder / "all", "ab", 12)
    for seed in range(1, 13):
        (runner.folder / f"all/games/{seed}_a_b").mkdir()
    errors = runner.tournament("list", "all").errors.splitlines()
    assert len(errors) == 11
    assert errors[-1] == "tournament: files in all/games that can't be read: 12"


def test_notes_and_logs(runner: Runner) -> None:
    both = engines(one="gtp_engine --fault stop:1", two="gtp_engine")
    runner.tournament("play", "all", *both, "--seeds", "1", "--", "--size", "2")
    (runner.folder / "all/games/1_one_two").unlink()
    for kind in ("notes", "logs"):
        for name in ("1_one_two", "1_two_one"):
            (runner.folder / "all" / kind / name).unlink()
            (runner.folder / "all" / kind / name).mkdir()
    status, output, errors = runner.tally("all", "--late", "half")
    assert (status, errors) == (1, "")
    assert "abandoned, and perhaps late, since there are no notes: 1" in output.splitlines()
    done = runner.tournament("export", "all", "--csv")
    assert (done.status, done.output.count("\n")) == (0, 2)
