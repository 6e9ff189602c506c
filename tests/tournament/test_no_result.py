"""Games without a result: twogtp fails, or files are removed while games are played."""
from __future__ import annotations

import shutil

import pytest

from .runner import TWO, Runner, engines

# a stand-in for twogtp, which is also run with `true` for an engine to try its options
STAND_IN = """\
if [[ $* = *"--black true"* ]]; then
    {}
    echo "game 1: abandoned black moves 0 restarts 2 0"
    exit 1
fi
echo "game 1: B+0.5 moves 3 restarts 0 0"
"""
TINY = ["--seeds", "1", "--", "--size", "2"]


@pytest.mark.parametrize(
    "end",
    [
        pytest.param("echo A1 B1 C1; exit 3", id="twogtp fails after its lines"),
        pytest.param("printf 'A1 B'", id="the record is cut off"),
    ],
)
def test_whole_line_is_no_result(end: str, runner: Runner) -> None:
    runner.environment["TWOGTP"] = str(runner.script("twogtp", STAND_IN.format(":") + end))
    done = runner.tournament("play", "all", *TWO, *TINY)
    assert (done.status, done.output) == (1, "0 of 2 games have a result\n")
    assert runner.games() == {}


def test_twogtp_that_cannot_be_started_any_more(runner: Runner) -> None:
    runner.tournament("plan", "all", *TWO, *TINY)
    runner.pass_trials()
    place = runner.script("twogtp", STAND_IN.format('chmod -x "$0"'))
    runner.environment["TWOGTP"] = str(place)
    done = runner.tournament("play", "all", "--jobs", "1")
    why = f"no result: twogtp can't be started: {place}: Permission denied\n"
    lines = "".join(f"tournament: {game}: {why}" for game in ("1_one_two", "1_two_one"))
    assert done == (1, "0 of 2 games have a result\n", lines)
    assert list((runner.folder / "all/running").iterdir()) == []


def test_long_line_is_quoted_in_part(runner: Runner) -> None:
    place = runner.script("twogtp", STAND_IN.format(":") + "printf '%060000d' 0 >&2; exit 3")
    runner.environment["TWOGTP"] = str(place)
    runner.tournament("plan", "all", *TWO, *TINY)
    runner.pass_trials()
    done = runner.tournament("game", "all", "1_one_two")
    assert done[::2] == (1, f"tournament: 1_one_two: no result: {197 * '0'} ..\n")


def test_directory_of_notes_is_removed_during_a_run(runner: Runner) -> None:
    runner.script("waits", "until [ -e go ]; do sleep 0.1; done; exec gtp_engine")
    runner.tournament("plan", "all", *engines(one="./waits", two="gtp_engine"), *TINY)
    runner.pass_trials()
    run = runner.start("tournament", "play", "all", "--jobs", "1")
    runner.wait_for("waits")
    shutil.rmtree(runner.folder / "all/notes")
    (runner.folder / "go").touch()
    done, place = runner.finish(run), f"{runner.folder}/all/notes/1_one_two"
    why = f"no result: {place} is gone: somebody removed it, or there was no room for it\n"
    assert (done.status, done.errors) == (1, f"tournament: 1_one_two: {why}")
    assert sorted(runner.games()) == sorted(runner.files("all/notes")) == ["1_two_one"]
    assert runner.tournament("play", "all")[::2] == (0, "")


@pytest.mark.parametrize("spoil", [": >", "rm -f"])
def test_results_are_counted_again_at_the_end(spoil: str, runner: Runner) -> None:
    place = "all/games/1_one_two"
    runner.script("spoils", f"[ ! -e {place} ] || {spoil} {place}\nexec gtp_engine")
    runner.tournament("plan", "all", *engines(one="gtp_engine", two="./spoils"), *TINY)
    runner.pass_trials()
    done = runner.tournament("play", "all", "--jobs", "1")
    *_, line, last = done.output.splitlines()
    assert (done.status, done.errors, line[:18]) == (1, "", "2 of 2: 1_two_one:")
    assert last.startswith("1 of 2 games have a result")
