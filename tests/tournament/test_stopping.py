"""A run that is stopped leaves nothing, and goes on as if nobody had stopped it."""
from __future__ import annotations

import signal
from typing import Dict, List

import pytest

from .misbehaving import STUBBORN, WAITS
from .runner import SMALL, Runner, engines
from .terminal import Terminal

STOPPED = "stopped: 4 of 8 games have a result; the same command goes on"


def waiting(runner: Runner, seed: int = 3) -> List[str]:
    """Returns the words of a tournament whose games wait for a file `go`, from this seed on."""
    waits = runner.script("waits", WAITS)
    both = engines(one=f"{waits} %s '' {seed}", two=f"{waits} %s 10 {seed}")
    return ["all", *both, "--seeds", "4", "--jobs", "2", *SMALL]


def wait_for_third_seed(runner: Runner) -> None:
    """Waits until the games of two seeds are over, and both of the third have begun."""
    runner.wait_for("game 3_one_two", "game 3_two_one")
    runner.wait_until(lambda: len(runner.games()) == 4)


def check_it_goes_on(runner: Runner, words: List[str], results: Dict[str, str]) -> None:
    """Fails unless nothing is left of a run, and the same command plays what is missing."""
    assert runner.is_idle()
    played = runner.games()
    assert sorted(played) == ["1_one_two", "1_two_one", "2_one_two", "2_two_one"]
    assert played.items() <= results.items()
    runner.write("go", "")
    assert runner.tournament("play", *words)[::2] == (0, "")
    assert runner.games() == results
    assert runner.files("all/running") == {}


@pytest.mark.parametrize(
    "number, status",
    [(signal.SIGTERM, 143), (signal.SIGHUP, 143), (signal.SIGKILL, -signal.SIGKILL)],
)
def test_stopped_by_a_signal(
    number: signal.Signals, status: int, runner: Runner, small_results: Dict[str, str]
) -> None:
    words = waiting(runner)
    process = runner.start("tournament", "play", *words)
    wait_for_third_seed(runner)
    process.send_signal(number)
    done = runner.finish(process)
    said = "" if number is signal.SIGKILL else f"tournament: {STOPPED}\n"
    assert (done.status, done.errors) == (status, said)
    check_it_goes_on(runner, words, small_results)


def test_stopped_in_a_terminal(runner: Runner, small_results: Dict[str, str]) -> None:
    words = waiting(runner)
    terminal = Terminal(runner, "tournament", "play", *words)
    wait_for_third_seed(runner)
    terminal.type(b"\x03")  # Ctrl-C
    assert terminal.finish() == 130
    assert STOPPED in terminal.text
    check_it_goes_on(runner, words, small_results)


def test_engines_that_can_only_be_killed(runner: Runner) -> None:
    stubborn = runner.script("stubborn", STUBBORN)
    both = engines(one=str(stubborn), two=f"timeout -k 5 300 {stubborn}")
    runner.tournament("plan", "all", *both, "--seeds", "2")
    runner.pass_trials()
    process = runner.start("tournament", "play", "all", "--jobs", "4")
    # of each engine of four games two processes
    runner.wait_until(lambda: len(runner.named("stubborn")) == 16)
    process.terminate()
    assert runner.finish(process).status == 143
    assert runner.processes() == []


# It leaves a process in a session of its own, and notes which of those before are left.
LEAVES = """\
while read -r pid; do
    ! kill -0 "$pid" || echo "$pid" >> left
done < <(cat pids) 2> /dev/null
setsid sleep 1000 < /dev/null > /dev/null 2>&1 &
echo $! >> pids
exec gtp_engine"""


def test_what_an_engine_has_started_ends_with_its_game(runner: Runner) -> None:
    both = engines(one=f"{runner.script('leaves', LEAVES)} %s", two="gtp_engine")
    options = ["--seeds", "2", "--jobs", "1", "--", "--size", "2"]
    assert runner.tournament("play", "all", *both, *options)[::2] == (0, "")
    assert runner.processes() == []
    # one of the trial and of each game, and none of them when the next one began
    assert len((runner.folder / "pids").read_text().split()) == 5
    assert not (runner.folder / "left").exists()


def test_what_an_engine_has_started_may_end_by_itself(runner: Runner) -> None:
    text = '(sleep 0.3; touch "$1") < /dev/null > /dev/null 2>&1 &\nexec gtp_engine'
    both = engines(one=f"{runner.script('ends', text)} ended.%s", two="gtp_engine")
    runner.tournament("play", "all", *both, "--seeds", "1", "--", "--size", "1")
    assert (runner.folder / "ended.1").exists()


def test_what_an_engine_has_started_ends_at_a_stop(runner: Runner) -> None:
    endless = runner.script("endless", "trap '' TERM\nsetsid -f sleep 1000\nsleep 1000")
    both = engines(one=str(endless), two=str(endless))
    runner.tournament("plan", "all", *both, "--seeds", "1")
    runner.pass_trials()
    process = runner.start("tournament", "play", "all", "--jobs", "2")
    runner.wait_until(lambda: len(runner.named("sleep")) == 8)
    process.terminate()
    assert runner.finish(process).status == 143
    assert runner.processes() == []
