"""Whatever of a run is killed, and whenever: no result is lost or torn, and no process is left."""
from __future__ import annotations

import random
import subprocess
import time
from typing import Dict, List

import pytest

from .runner import SMALL, Runner, engines, kill

SLOW = 'sleep 0.4\nexec gtp_engine --policy random --seed "$1"'
WORDS = [*engines(one="./slow %s", two="./slow 10%s"), "--seeds", "4", "--jobs", "2", *SMALL]


def pytest_generate_tests(metafunc: pytest.Metafunc) -> None:
    """Gives the test a number for each tournament, of which --count says how many."""
    metafunc.parametrize("number", range(metafunc.config.getoption("--count") or 3))


def kill_some(runner: Runner, run: "subprocess.Popen[str]", chosen: random.Random) -> str:
    """Kills something of a run, ends the run, and returns what was killed."""
    games = [process.name for process in runner.processes() if process.name.startswith("game ")]
    names = ["all", "tournament", "twogtp", *chosen.sample(games, min(1, len(games)))]
    name = chosen.choice(names)
    if name == "all":
        runner.kill_all()
    else:
        for pid in runner.named(name)[:1]:
            kill(pid)
        if name != "tournament":
            run.terminate()
    runner.finish(run)
    return name


def test_run_goes_on_after_kills(
    number: int, runner: Runner, small_results: Dict[str, str], request: pytest.FixtureRequest
) -> None:
    chosen = random.Random(1000 * request.config.getoption("--seed") + number)
    runner.script("slow", SLOW)
    killed: List[str] = []
    played: Dict[str, str] = {}
    for _ in range(4):
        unseen = dict.fromkeys(["stdout", "stderr"], subprocess.DEVNULL)
        run = runner.start("tournament", "play", "all", *WORDS, **unseen)
        time.sleep(chosen.uniform(0.1, 2))
        killed.append(kill_some(runner, run, chosen))
        assert runner.is_idle(), (killed, runner.processes())
        before, played = played, runner.games() if (runner.folder / "all/games").exists() else {}
        assert before.items() <= played.items() <= small_results.items(), killed
    assert runner.tournament("play", "all", *WORDS)[::2] == (0, "")
    assert runner.games() == small_results
    assert list((runner.folder / "all/running").iterdir()) == []
