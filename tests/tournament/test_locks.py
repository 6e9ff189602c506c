"""Who plays a game holds its lock: two processes, those that were killed, and earlier scripts."""
from __future__ import annotations

import os
import sys
from typing import Dict, List, Optional

import pytest

from .runner import RANDOM, SCRIPTS, SMALL, TWO, Runner, engines

PLAN = ["all", *TWO, "--seeds", "4", *SMALL]

# ---- what killed games have left


# What lies in the directory of a game that nobody plays, whether it has a result, and what is left
# where a run begins; None where the directory is gone. An earlier script makes the directory and
# then the lock, takes it, and never looks whether both are still there.
@pytest.mark.parametrize(
    "names, has_result, left",
    [
        pytest.param([], False, [], id="an empty directory"),
        pytest.param(["lock"], False, ["lock"], id="a lock alone"),
        pytest.param(["lock", "log", "notes", "result"], False, ["lock"], id="a killed game"),
        pytest.param([], True, None, id="an empty directory of a game with a result"),
        pytest.param(["lock"], True, None, id="a lock alone of a game with a result"),
        pytest.param(["lock", "log", "result"], True, None, id="a killed game with a result"),
        pytest.param(["log"], True, ["log"], id="a log whose lock was just removed"),
    ],
)
def test_what_a_run_clears_before_it_begins(
    names: List[str], has_result: bool, left: Optional[List[str]], runner: Runner
) -> None:
    runner.tournament("plan", *PLAN)
    runner.pass_trials()
    place = runner.folder / "all/running/1_one_two"
    place.mkdir()
    for name in names:
        (place / name).touch()
    if has_result:
        (runner.folder / "all/games/1_one_two").touch()
    runner.tournament("play", "all", "--time-left", "1")  # in which no game begins
    assert (sorted(path.name for path in place.iterdir()) if place.exists() else None) == left


def test_no_lock_is_made_of_a_game_that_another_process_has_ended(
    runner: Runner, small_results: Dict[str, str]
) -> None:
    # that is about to remove the directory
    runner.tournament("plan", *PLAN)
    runner.write("all/games/1_one_two", small_results["1_one_two"])
    (runner.folder / "all/running/1_one_two").mkdir()
    assert runner.tournament("game", "all", "1_one_two") == (0, "", "")
    assert runner.files("all/running/1_one_two") == {}


REMOVED = """\
import fcntl, os, runpy, shutil, sys
flock = fcntl.flock

def remove_first(file, how):
    fcntl.flock = flock
    shutil.rmtree(os.path.dirname(os.readlink(f"/proc/self/fd/{file}")))
    flock(file, how)

fcntl.flock = remove_first
del sys.argv[0]
runpy.run_path(sys.argv[0], run_name="__main__")
"""


def test_lock_is_taken_again_where_it_was_removed(
    runner: Runner, small_results: Dict[str, str]
) -> None:
    # by another process, between the two steps in which this one takes it
    runner.tournament("plan", *PLAN)
    runner.pass_trials()
    script = SCRIPTS / "tournament"
    done = runner.run(sys.executable, "-c", REMOVED, script, "game", "all", "1_one_two")
    assert (done.status, done.errors) == (0, "")
    assert runner.games() == {"1_one_two": small_results["1_one_two"]}
    assert runner.files("all/running") == {}


# ---- earlier scripts, which were written in bash

# They play a game so: with the same lock, and the same files.
EARLIER = """\
folder=$1 game=$2 at=$1/running/$2
IFS=_ read -r seed black white <<< "$game"
random="gtp_engine --policy random --seed"
declare -A of=([one]="$random $seed" [two]="$random 10$seed")
[ ! -e "$folder/games/$game" ] || exit 0
{ mkdir -p "$at" && exec 9>> "$at/lock"; } 2> /dev/null || exit 1
flock -n 9 || exit 1
[ ! -e "$folder/games/$game" ] || { rm -rf "$at"; exit 0; }
rm -f "$at/result" "$at/log"
sleep "${3:-0}"
twogtp --why --record --size 5 --komi 0.5 --black "${of[$black]}" --white "${of[$white]}" \\
    > "$at/result" 2> "$at/log" 9>&-
rm -f "$folder/logs/$game"
sync "$at/result" && mv -f "$at/result" "$folder/games/$game" && rm -rf "$at" && echo "$game"
"""
EARLIER_PLAN = f"""\
engine one {RANDOM} %s
engine two {RANDOM} 10%s
option --size
option 5
option --komi
option 0.5
seeds 4
limit 600
"""


@pytest.fixture
def earlier(runner: Runner, small_results: Dict[str, str]) -> Runner:
    """Returns what runs the scripts where earlier ones have left a tournament.

    It has two results, and what was written of two games when everything was killed.
    """
    runner.script("earlier", EARLIER)
    for name in ("games", "logs", "running/3_one_two", "running/4_two_one"):
        (runner.folder / "all" / name).mkdir(parents=True)
    runner.write("all/plan", EARLIER_PLAN)
    for game in ("1_one_two", "1_two_one"):
        runner.write(f"all/games/{game}", small_results[game])
    for name, text in {"lock": "", "log": "", "result": small_results["3_one_two"][:20]}.items():
        runner.write(f"all/running/3_one_two/{name}", text)
    return runner


def test_tournament_of_earlier_scripts_goes_on(
    earlier: Runner, small_results: Dict[str, str]
) -> None:
    before = os.stat(earlier.folder / "all/games/1_one_two").st_mtime_ns
    missing = set(small_results) - {"1_one_two", "1_two_one"}
    assert set(earlier.tournament("list", "all").output.split()) == missing
    status, output, errors = earlier.tournament("play", *PLAN)
    assert (status, output.count("\n"), errors) == (0, 7, "")
    assert earlier.games() == small_results
    assert os.stat(earlier.folder / "all/games/1_one_two").st_mtime_ns == before
    assert (earlier.folder / "all/plan").read_text() == EARLIER_PLAN
    assert earlier.files("all/running") == {}


def test_game_that_an_earlier_script_plays(earlier: Runner, small_results: Dict[str, str]) -> None:
    earlier.start("./earlier", "all", "2_one_two", "1000")
    lock = earlier.folder / "all/running/2_one_two/lock"
    earlier.wait_for("sleep")
    said = "tournament: 2_one_two: another process plays it\n"
    assert earlier.tournament("game", "all", "2_one_two") == (0, "", said)
    status, output, errors = earlier.tournament("play", "all")
    assert (status, output.splitlines()[-1]) == (1, "7 of 8 games have a result")
    assert errors == "tournament: games that another process plays: 1\n"
    assert lock.exists()
    earlier.kill_all()
    assert earlier.is_idle()
    assert earlier.tournament("play", "all")[::2] == (0, "")
    assert earlier.games() == small_results


def test_earlier_script_plays_no_game_that_is_played(runner: Runner) -> None:
    runner.script("earlier", EARLIER)
    runner.tournament("plan", "all", *engines(one="sleep 1000", two="cat"), "--seeds", "1")
    runner.pass_trials()
    process = runner.start("tournament", "game", "all", "1_one_two")
    runner.wait_for("sleep")
    assert runner.run("./earlier", "all", "1_one_two") == (1, "", "")
    process.terminate()
    assert runner.finish(process).status == 143
    assert runner.files("all/running") == {}
    assert runner.processes() == []


def test_both_play_at_once(runner: Runner, small_results: Dict[str, str]) -> None:
    runner.script("earlier", EARLIER)
    runner.tournament("plan", *PLAN)
    by_earlier = "tournament list all | xargs -n 1 -P 2 ./earlier all > earlier.out"
    done = runner.shell(f"{by_earlier} & tournament play all --jobs 2 > play.out; wait")
    assert done.status == 0
    # which it is where one takes long
    said = "tournament: games that another process plays: "
    assert all(line.startswith(said) for line in done.errors.splitlines())
    assert runner.games() == small_results
    assert runner.files("all/running") == {}
    *lines, _ = (runner.folder / "play.out").read_text().splitlines()
    played = (runner.folder / "earlier.out").read_text().split()
    played += [line.split(": ")[1] for line in lines]
    assert sorted(played) == sorted(small_results)  # each game once
