"""What people do by docs/tournaments.md: the blocks that they copy, and other advice."""
from __future__ import annotations

import os
import re
import shlex
import shutil
import subprocess
import textwrap
from typing import Iterable, List, Sequence, Tuple

import pytest

from tests.shared.processes import TOP

from .machines import use_parallel
from .runner import RANDOM, SCRIPTS, SMALL, TWO, Runner, engines

PAGE = (TOP / "docs/tournaments.md").read_text()
TINY = ["--seeds", "1", "--", "--size", "2"]


def block(words: str) -> str:
    """Returns the block of the page that has these words."""
    blocks = re.findall(r"^( *)```\n(.*?)^\1```$", PAGE, re.MULTILINE | re.DOTALL)
    (found,) = (textwrap.dedent(text) for _, text in blocks if words in text)
    return found


MOVES = {"B": "D4", "W": "D4 D16"}  # of a game that this side wins, as the other one resigns


def write_games(runner: Runner, pairs: Iterable[Sequence[str]]) -> None:
    """Makes a tournament with these pairs: who won where one is Black, and where two is."""
    words = engines(one="gtp_engine", two=f"{RANDOM} %s")
    runner.tournament("plan", "night", *words, "--seeds", "1")
    for seed, pair in enumerate(pairs, 1):
        for sides, winner in zip(("one_two", "two_one"), pair):
            count = len(MOVES[winner].split())
            text = f"{winner}+R moves {count} restarts 0 0\n{MOVES[winner]}"
            runner.write(f"night/games/{seed}_{sides}", f"game 1: {text}\n")


# ---- a run that ends with a test; what decides is there, so nothing is played

ONE_WINS, BLACK_WINS = ("B", "W"), ("B", "B")
MANY = [ONE_WINS, ONE_WINS, BLACK_WINS] * 50
OTHERWISE = [pair[::-1] if pair == ONE_WINS else pair for pair in MANY]


@pytest.mark.parametrize(  # by R, as in test_sprt.py
    "pairs, accepted, seed, status",
    [
        pytest.param(MANY, "10 Elo accepted, not 0 Elo", 104, 0, id="accepted"),
        pytest.param(OTHERWISE, "0 Elo accepted, not 10 Elo", 101, 3, id="the other one"),
    ],
)
def test_run_that_ends_with_a_test(
    pairs: List[Tuple[str, str]], accepted: str, seed: int, status: int, runner: Runner
) -> None:
    write_games(runner, pairs)
    done = runner.shell(block("--sprt"))
    line = done.output.splitlines()[-1]
    assert (done.status, done.errors) == (0, "")
    assert line.startswith(f"one - two: {accepted}, at the pair of seed {seed}: ")
    assert runner.tally("night", "--sprt", "0", "10") == (status, f"{line}\n", "")


# ---- other commands


def test_new_directory_with_old_games(runner: Runner) -> None:
    words = [*TWO, *TINY]
    runner.tournament("play", "night", *words)
    runner.shell("mkdir new && cp -a night/games night/logs night/notes new")
    done = runner.tournament("play", "new", "--move-limit", "9", *words)
    assert done == (0, "2 of 2 games have a result\n", "")


def test_plan_that_is_made_again(runner: Runner) -> None:
    write_games(runner, [("B", "W"), ("W", "B")])
    runner.write("night/plan", "folder x\n")
    done = runner.tournament("play", "night")
    assert done == (2, "", "tournament: night/plan lacks engines, seeds or the limit\n")
    (runner.folder / "night/plan").unlink()
    words = engines(one="gtp_engine", two=f"{RANDOM} %s")
    done = runner.tournament("play", "night", *words, "--seeds", "2")
    assert done == (0, "4 of 4 games have a result\n", "")


def test_plan_in_a_file(runner: Runner) -> None:
    text = block("[engines.a]").replace("size = 9", "size = 2").replace("= 20", "= 1")
    runner.write("night.toml", text.replace('".."', '"gtp_engine"'))
    if "tomli" in (done := runner.tournament("play", "night.toml")).errors:
        pytest.skip("this Python reads no TOML")
    assert done[::2] == (0, "")
    assert sorted(runner.games("night")) == ["1_a_b", "1_b_a"]
    plan = (runner.folder / "night/plan").read_text().splitlines()
    assert plan[3:7] == ["move-limit = 30", "start-limit = 60", "seeds = 1", "limit = 7200"]


def test_run_that_survives_a_logout(runner: Runner) -> None:
    runner.script("waits", "until [ -e go ]; do sleep 0.1; done; exec gtp_engine")
    runner.tournament("plan", "night", *engines(one="./waits", two="gtp_engine"), *TINY)
    runner.pass_trials("night")
    nohup = block("nohup")
    shell = runner.start("bash", "-c", f"{nohup}echo $!; wait", stderr=subprocess.DEVNULL)
    assert shell.stdout
    number = shell.stdout.readline().strip()
    runner.wait_for("game 1_one_two")
    runner.run("kill", number)
    runner.finish(shell)
    log = runner.folder / "night.log"
    assert log.read_text().splitlines()[-1].startswith("tournament: stopped: ")
    assert runner.is_idle()
    (runner.folder / "go").touch()
    runner.shell(f"{nohup}wait")
    assert log.read_text().splitlines()[-1] == "2 of 2 games have a result"


def test_tap_with_the_seed_in_its_log(runner: Runner) -> None:
    words = engines(one=f"tap {runner.folder}/log.%s gtp_engine", two=f"{RANDOM} %s")
    runner.tournament("play", "night", *words, "--seeds", "2", "--", "--size", "2")
    # each seed has two games, and the first one the trial before them
    starts = ["1.1", "1.2", "1.3", "2.1", "2.2"]
    names = [f"log.{start}.commands" for start in starts]
    assert sorted(place.name for place in runner.folder.glob("log.*.commands")) == names
    assert "name" in (runner.folder / "log.1.1.commands").read_text()


# ---- several machines


def test_shared_directory(runner: Runner) -> None:
    (runner.folder / "shared").mkdir()
    for name in ("one", "two"):
        runner.script(f"shared/{name}", "exec gtp_engine")
    lines = block("tournament plan /shared/far").replace("/shared", f"{runner.folder}/shared")
    done = runner.shell(lines.replace("500", "1 -- --size 2"))
    assert (done[::2], len(runner.games("shared/far"))) == ((0, ""), 2)


def test_gnu_parallel(runner: Runner) -> None:
    # nothing is in the PATH of the machine, so twogtp is found in ../bin, seen from the scripts
    use_parallel(runner, "env", "-u", "TWOGTP", shlex.quote(f"PATH={os.environ['PATH']}"))
    shared = runner.folder / "shared"
    for folder in ("one", "shared/bin"):
        (runner.folder / folder).mkdir(parents=True)
    shutil.copytree(SCRIPTS, shared / "scripts")
    shutil.copy(runner.programs / "twogtp", shared / "bin")
    engine = runner.programs / "gtp_engine"
    words = engines(one=str(engine), two=f"{engine} --policy random --seed %s")
    runner.tournament("plan", "shared/far", *words, "--seeds", "2", *SMALL)
    runner.write("hosts", "4/one\n")
    options = "--will-cite --retries 5 --sshloginfile hosts --ssh 'machine hosts'"
    game = f"{shared}/scripts/tournament game {shared}/far"
    done = runner.shell(f"tournament list shared/far | parallel {options} {game}")
    assert (done.status, len(runner.games("shared/far"))) == (0, 4)
