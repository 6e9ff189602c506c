"""The lines on standard error that say how far a run is."""
from __future__ import annotations

import os
import re
from typing import List, NamedTuple

import pytest

from .inside import module
from .misbehaving import HANGS
from .runner import Runner, engines
from .terminal import Terminal
from .test_tally import THREE_ENGINES
from .written import ENDED, OUTCOMES, write_pairs, write_results

progress = module("play.progress")
PLAY = ["tournament", "play", "all", "--jobs", "1"]


class Clock:
    """A clock whose seconds the test sets."""

    seconds = 100.0

    def __call__(self) -> float:
        return self.seconds


class Run(NamedTuple):
    """A run that began with some results: after so many seconds it has more."""

    before: int
    total: int
    seconds: float
    results: int
    failed: int = 0
    lost: int = 0  # results of unfit and abandoned sides


@pytest.mark.parametrize(
    "run, line",
    [
        (
            Run(0, 20, 60, 4, failed=1, lost=3),
            "4 of 20 games have a result, 3 of them unfit, abandoned or late, 1 failed; "
            "4.0 games a minute, 4 min left",
        ),
        (
            Run(0, 20, 0, 0),
            "0 of 20 games have a result, 0 failed; 0.0 games a minute, unknown time left",
        ),
        (
            Run(5, 20, 60, 5, failed=3),
            "5 of 20 games have a result, 3 failed; 0.0 games a minute, unknown time left",
        ),
        (
            # one in half a minute, and nine are left
            Run(10, 20, 30, 11),
            "11 of 20 games have a result, 0 failed; 2.0 games a minute, 4 min left",
        ),
    ],
    ids=str,
)
def test_line(run: Run, line: str) -> None:
    clock = Clock()
    shown = progress.Progress(run.before, run.total, str, False, clock)
    clock.seconds += run.seconds
    shown.failed, shown.lost = run.failed, run.lost
    assert shown.line(run.results) == line


@pytest.mark.parametrize(
    "results, total, left",
    [
        (40, 1000, "4 h"),  # 960 games at 4.0 a minute are 240 minutes
        (40, 100_000, "17 days"),  # 24,990 minutes are 17.4 days
        (10, 1000, "16 h"),  # 990 minutes
        (10, 109, "99 min"),
        (10, 110, "2 h"),  # 100 minutes
        (10, 6009, "100 h"),  # 5,999 minutes
        (10, 6010, "4 days"),  # 6,000 minutes, 100 hours
    ],
)
def test_time_that_is_left(results: int, total: int, left: str) -> None:
    clock = Clock()
    shown = progress.Progress(0, total, str, False, clock)
    clock.seconds += 600
    assert shown.line(results).endswith(f" games a minute, {left} left")


@pytest.mark.parametrize(
    "is_terminal, pauses",
    [
        pytest.param(True, [0, 10, 10], id="in a terminal"),
        pytest.param(False, [60, 60, 60], id="elsewhere"),
    ],
)
def test_pauses_between_lines(
    is_terminal: bool, pauses: List[float], capfd: pytest.CaptureFixture[str]
) -> None:
    clock = Clock()
    shown = progress.Progress(0, 10, str, is_terminal, clock)
    line = f"tournament: {shown.line(0)}"
    found = []
    for number in range(3):
        found.append(shown.pause())
        clock.seconds += found[-1]
        shown.line = lambda _: line.removeprefix("tournament: ")
        shown.show(0)
        stops = "" if number else f"; kill {os.getpid()} stops this run"
        assert capfd.readouterr().err == f"{line}{stops}\n"
    assert found == pauses


def test_first_line_comes_at_once_in_a_terminal(runner: Runner) -> None:
    both = engines(one=f"{runner.script('hangs', HANGS)} 1", two="gtp_engine")
    runner.tournament("plan", "all", *both, "--seeds", "4")
    runner.pass_trials()
    terminal = Terminal(runner, *PLAY)
    terminal.wait_for("\n")
    counted = "0 of 8 games have a result, 0 failed; 0.0 games a minute, unknown time left"
    stops = f"kill {terminal.process.pid} stops this run"
    assert terminal.text.splitlines()[0] == f"tournament: {counted}; {stops}"


def test_line_counts_abandoned_sides(runner: Runner) -> None:
    hangs = runner.script("hangs", HANGS)
    some = engines(one="gtp_engine --fault stop:1", two="gtp_engine", three=f"{hangs} 1")
    options = ["--gauntlet", "two", "--seeds", "1", "--", "--size", "9", "--restarts", "0"]
    runner.tournament("plan", "all", *some, *options)
    runner.pass_trials()
    terminal = Terminal(runner, *PLAY)
    # two games are abandoned, and then one hangs
    counted = "2 of 4 games have a result, 2 of them unfit, abandoned or late, 0 failed; "
    terminal.wait_for(f"tournament: {counted}")
    assert re.search(r"; \d+\.\d games a minute, \d+ min left", terminal.text)


# ---- who leads

# The pairs are 1 0 2 2 2, as in test_tally.py, where their interval is
# worked out by hand. The ratios are by R, as in test_sprt.py.
PAIRS = [OUTCOMES[points] for points in (0, 2, 2, 3, 3, 4, 4)]
A_LEADS = "a leads with 64.3 %, +102 Elo (-98 to +358)"
RATIOS = "log likelihood ratio 0.68, exact 0.57, bounds -2.94 and 2.94"


def first_line(runner: Runner, names: str, seeds: int, *words: str) -> str:
    """Returns what the first line of progress says where these engines hang, and some games have
    results."""
    hangs = runner.script("hangs", HANGS)
    some = engines(**{name: f"{hangs} 1" for name in names})
    runner.tournament("plan", "all", *some, "--seeds", seeds, "--", "--size", "9", "--komi", "7")
    runner.pass_trials()
    terminal = Terminal(runner, *PLAY, *words)
    terminal.wait_for("\n")
    line = terminal.text.splitlines()[0]
    return line.partition("unknown time left; ")[2].partition("; kill")[0]


@pytest.mark.parametrize(
    "words, said",
    [
        pytest.param([], A_LEADS, id="alone"),
        pytest.param(["--sprt", "0", "100"], f"{A_LEADS}; {RATIOS}", id="with a test"),
    ],
)
def test_line_says_who_leads(words: List[str], said: str, runner: Runner) -> None:
    write_pairs(runner.folder / "all", PAIRS)
    (runner.folder / "all/plan").unlink()
    assert first_line(runner, "ab", 8, *words) == said


def test_line_says_who_leads_of_three_engines(runner: Runner) -> None:
    # as in test_tally.py, where R says so
    results = {game: f"{verdict} {ENDED}" for game, verdict in THREE_ENGINES.items()}
    (runner.folder / "all/games").mkdir(parents=True)
    write_results(runner.folder / "all", results)
    said = "a leads with 81.2 %, +136 Elo (-35 to +307)"
    assert first_line(runner, "abc", 3) == said
