"""`tournament check`: it tries the engines, plays short games, and says how long all games take."""
from __future__ import annotations

import re
import signal
from pathlib import Path
from typing import List

import pytest

from .inside import module
from .runner import TWO, Runner, engines

check = module("play.check")
model = module("model")
THREE = [*TWO, *engines(three="gtp_engine --policy random --seed 20%s")]
OPTIONS = ["--seeds", "4", "--", "--size", "9", "--komi", "0.5"]


@pytest.fixture
def kept(runner: Runner) -> Path:
    """Returns the directory in which a check keeps its files."""
    folder = runner.folder / "kept"
    folder.mkdir()
    runner.environment["TMPDIR"] = str(folder)
    return folder


def without_seconds(lines: str) -> List[str]:
    """Returns lines without what a machine decides."""
    text = re.sub(r"in \d+\.\d seconds", "in SECONDS", lines)
    return re.sub(r": (\d+ (min|h|days)|less than 1 min)$", ": TIME", text, flags=re.M).splitlines()


def test_each_two_engines_play_a_short_game(kept: Path, runner: Runner) -> None:
    done = runner.tournament("check", "all", *THREE, "--jobs", "2", *OPTIONS)
    lines = without_seconds(done.output)
    versions = [line.split(": ") for line in lines[:3]]
    assert [name for name, _ in versions] == ["one", "two", "three"]
    assert len({version for _, version in versions}) == 1
    games = ["1_one_three", "1_one_two", "1_two_three"]
    short = "limit moves 20 restarts 0 0, in SECONDS"
    assert sorted(lines[3:6]) == [f"{name}: {short}" for name in games]
    # 3 pairs of engines, 4 seeds, both colours; 480 / 2
    assert lines[6:] == [
        "24 games of about 81 moves, 2 at once: TIME",
        "after 4 pairs of two engines the interval is about 240 Elo wide on each side",
    ]
    assert (done.status, done.errors) == (0, "")
    assert list(runner.folder.iterdir()) == [kept]
    assert list(kept.iterdir()) == []


def test_games_with_a_result_are_not_counted(kept: Path, runner: Runner) -> None:
    words = [*TWO, "--seeds", "2", "--", "--size", "5", "--max-moves=3"]
    runner.tournament("plan", "all", *words)
    runner.tournament("game", "all", "1_one_two")
    before = runner.files("all/games"), (runner.folder / "all/plan").read_text()
    done = runner.tournament("check", "all", "--jobs", "1")
    assert "1_one_two: limit moves 3 restarts 0 0, in SECONDS" in without_seconds(done.output)
    assert "3 games of about 3 moves, 1 at once: TIME" in without_seconds(done.output)
    assert before == (runner.files("all/games"), (runner.folder / "all/plan").read_text())


def test_file_and_opening(kept: Path, runner: Runner) -> None:
    runner.write("lines", "A1 B2 C3\n")
    tables = "[engines.one]\ncommand = 'gtp_engine'\n[engines.two]\nlike = 'one'\n"
    runner.write("a.toml", f"seeds = 1\njobs = 1\nsize = 5\nopenings = 'lines'\n{tables}")
    done = runner.tournament("check", "a.toml")
    assert "1_one_two: limit moves 23 restarts 0 0, in SECONDS" in without_seconds(done.output)
    assert (done.status, done.errors, (runner.folder / "a").exists()) == (0, "", False)


def test_engine_that_cannot_be_started(kept: Path, runner: Runner) -> None:
    runner.script("bad", "echo no weights >&2; exit 7")
    both = engines(one="gtp_engine --seed %s", two="./bad")
    done = runner.tournament("check", "all", *both, *OPTIONS)
    (place,) = kept.iterdir()
    first, *others = done.errors.splitlines()
    assert (done.status, done.output) == (69, "")
    assert first.startswith("tournament: two can't be started here: it ended at 'boardsize 9'")
    assert others[-1] == f"tournament: what was written is in {place}"
    assert (place / first.split(f"{place}/")[1].split(" is: ")[0]).read_text() == "no weights\n"


@pytest.mark.parametrize(
    "bad, status",
    [
        pytest.param("gtp_engine --fault stop:3", 1, id="crashes"),
        pytest.param("gtp_engine --fault stop:30", 0, id="crashes later"),
    ],
)
def test_engine_that_crashes(bad: str, status: int, kept: Path, runner: Runner) -> None:
    both = engines(one="gtp_engine --seed %s", two=bad)
    done = runner.tournament("check", "all", *both, *OPTIONS, "--restarts", "0")
    assert done.status == status
    assert ("abandoned white" in done.output) == bool(status)
    assert ("at once" in done.output) == (not status)
    failed = "tournament: a side failed, or there is no result: 1_one_two\n"
    assert done.errors == "".join(
        f"{failed}tournament: what was written is in {place}\n" for place in kept.iterdir()
    )


def test_crash_after_which_the_game_goes_on(kept: Path, runner: Runner) -> None:
    # its trial is the first start; the second one ends after three moves, and the third goes on
    text = 'echo >> starts\n[ "$(wc -l < starts)" = 2 ] && exec gtp_engine --fault stop:3\n'
    runner.script("crashes", f"{text}exec gtp_engine")
    both = engines(one="gtp_engine --seed %s", two="./crashes")
    done = runner.tournament("check", "all", *both, "--jobs", "1", *OPTIONS)
    (place,) = kept.iterdir()
    assert "1_one_two: limit moves 20 restarts 0 1, in SECONDS" in without_seconds(done.output)
    assert "8 games of about 81 moves, 1 at once: TIME" in without_seconds(done.output)
    assert (done.status, done.errors) == (
        1,
        "tournament: two crashed in 1_one_two, and was started again\n"
        f"tournament: what was written is in {place}\n",
    )


def test_time_of_the_engines_that_played(kept: Path, runner: Runner) -> None:
    bad = "gtp_engine --seed %s --fault stop:3"
    three = engines(one="gtp_engine --seed %s", two="gtp_engine --seed %s", bad=bad)
    words = ["--jobs", "1", *OPTIONS, "--restarts", "0"]
    done = runner.tournament("check", "all", *three, *words)
    assert done.status == 1
    assert done.errors.startswith(
        "tournament: a side failed, or there is no result: 1_one_bad, 1_two_bad\n"
    )
    # of 4 seeds, with both colours: 8 games of one and two, and 16 in which one side is bad
    said = "8 games of about 81 moves, without 16 of engines that failed, 1 at once: TIME"
    assert said in without_seconds(done.output)


def test_check_is_stopped(kept: Path, runner: Runner) -> None:
    runner.script("waits", "[ -e tried ] && exec sleep 1000; touch tried; exec gtp_engine")
    both = engines(one="gtp_engine --seed %s", two="./waits")
    process = runner.start("tournament", "check", "all", *both, *OPTIONS)
    runner.wait_for("game 1_one_two")
    process.send_signal(signal.SIGINT)
    assert runner.finish(process).status == 130
    assert (list(kept.iterdir()), runner.is_idle()) == ([], True)


# ---- estimates, worked out by hand


@pytest.mark.parametrize(
    "line, opening, length, seconds",
    [
        # 20 moves took 2 of 3 seconds; 57 are missing, which take 5.7 more
        pytest.param("limit moves 24 restarts 0 0", 4, 81, 8.7, id="limit of moves"),
        pytest.param("B+R moves 24 restarts 0 0", 4, 81, 3, id="it ended"),
        pytest.param("limit moves 24 restarts 0 0", 4, 24, 3, id="no game is longer"),
    ],
)
def test_time_of_a_game(line: str, opening: int, length: int, seconds: float) -> None:
    verdict, moves = line.split(" moves ")
    result = model.Result(line, verdict, int(moves.split()[0]), (0, 0), "")
    sample = check.Sample("1_one_two", result, 3.0, 2.0)
    assert sample.estimate(opening, length) == pytest.approx(seconds)


def test_time_of_all_games() -> None:
    plan = model.Plan()
    for name in ("a", "b", "c"):
        plan.add_engine(name, "x")
    plan.seeds, plan.limit, plan.options = 5, 20, ["--size", "5"]
    result = model.Result("", "limit", 10, (0, 0), "")
    samples = [
        check.Sample("1_a_b", result, 2.0, 1.0),  # 25 moves: 3.5 seconds
        check.Sample("1_c_a", result, 30.0, 1.0),  # more than the limit
        check.Sample("1_b_c", None, 1.0, 1.0),
    ]
    names = ["1_a_b", "2_b_a", "4_a_c"]
    assert check.seconds_of_games(plan, samples, names) == pytest.approx(2 * 3.5 + 20)


def test_limit_that_is_too_low_is_named(capfd: pytest.CaptureFixture[str]) -> None:
    plan = model.Plan()
    for name in ("a", "b"):
        plan.add_engine(name, "x")
    plan.seeds, plan.limit, plan.options = 100, 20, ["--size", "9"]
    result = model.Result("", "limit", 21, (0, 0), "")
    samples = [check.Sample("1_a_b", result, 9.0, 7.0)]  # 81 moves: 9 + 7 * 60 / 21 seconds
    module("cli.check").say_time(plan, samples, [f"{seed}_a_b" for seed in range(1, 61)], 2)
    printed, errors = capfd.readouterr()
    assert errors == (
        "tournament: a game such as 1_a_b may take 29 seconds, and --limit is 20: raise it\n"
    )
    assert printed == (
        "60 games of about 81 moves, 2 at once: 10 min\n"
        "after 100 pairs of two engines the interval is about 48 Elo wide on each side\n"
    )
