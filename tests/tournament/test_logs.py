"""What engines write on standard error: the first and the last part of it are kept."""
from __future__ import annotations

import re
import subprocess
from pathlib import Path
from typing import Dict, List

import pytest

from .runner import RANDOM, Runner, engines

PART = 256 * 1024  # bytes of each of both parts
# At each start it writes 70,000 lines of 15 bytes between two others. At the first it ends then.
CHATTY = """\
start=$(cat starts 2> /dev/null || echo 0)
echo $((start + 1)) > starts
echo "begin $start" >&2
yes "a line of many" | head -n 70000 >&2
echo "end $start" >&2
[ "$start" != 0 ] || exec gtp_engine --fault stop:1
exec gtp_engine"""
BOARD = ["--", "--size", "3", "--komi", "1"]


@pytest.mark.parametrize("direct", [[], ["--direct"]], ids=["with between", "direct"])
def test_middle_of_a_long_log_is_left_out(direct: List[str], runner: Runner) -> None:
    runner.script("chatty", CHATTY)
    both = engines(one="./chatty", two="gtp_engine")
    runner.tournament("plan", "all", *both, "--seeds=1", *direct, *BOARD)
    runner.pass_trials()
    assert runner.tournament("game", "all", "1_one_two").status == 0
    assert "restarts 1 0" in runner.games()["1_one_two"]
    log = (runner.folder / "all/logs/1_one_two").read_text()
    assert log.startswith("begin 0\na line of many\n") and log.endswith("a line of many\nend 1\n")
    (why,) = re.findall("^twogtp: game 1: black: .*\n", log, re.MULTILINE)  # of the middle
    (left_out,) = re.findall("\ntournament: ([0-9]+) bytes are left out here\n", log)
    said = f"\ntournament: {left_out} bytes are left out here\n"
    assert len(log) - len(said) + int(left_out) == 2 * (8 + 15 * 70000 + 6) + len(why)
    assert 2 * PART - 1000 < len(log) < 2 * PART + 1000


def test_short_log_is_whole(runner: Runner) -> None:
    runner.script("chatty", CHATTY.replace("70000", "30000"))  # 450,000 bytes
    (runner.folder / "starts").write_text("1")
    both = engines(one="./chatty", two="gtp_engine")
    runner.tournament("plan", "all", *both, "--seeds=1", *BOARD)
    runner.pass_trials()
    assert runner.tournament("game", "all", "1_one_two").status == 0
    log = (runner.folder / "all/logs/1_one_two").read_text()
    assert log == "begin 1\n" + "a line of many\n" * 30000 + "end 1\n"


def test_engine_that_never_stops_to_write_is_ended_at_the_limit(runner: Runner) -> None:
    runner.script("chatty", "yes >&2 & exec sleep 1000")
    both = engines(one="./chatty", two="gtp_engine")
    runner.tournament("plan", "all", *both, "--seeds=1", "--limit=2", *BOARD)
    runner.pass_trials()
    status, _, errors = runner.tournament("game", "all", "1_one_two")
    assert (status, "not over in 2 seconds" in errors) == (1, True)
    assert (runner.folder / "all/logs/1_one_two").stat().st_size < 2 * PART + 1000
    assert runner.is_idle()


@pytest.mark.root
def test_game_that_fills_the_disk_does_not_end_the_others(runner: Runner) -> None:
    disk: Path = runner.folder / "disk"
    disk.mkdir()
    mount = ["mount", "-t", "tmpfs", "-o", "size=2m", "none", str(disk)]
    if subprocess.run(mount, capture_output=True).returncode != 0:
        pytest.skip("nothing may be mounted here")
    try:
        fill = "cat /dev/zero > $(echo disk/all/running/1_*)/fill"
        runner.script("fills", f'[ "$1" != 1 ] || {fill} 2> /dev/null\nexec {RANDOM} $1')
        both = engines(one="./fills %s", two=f"{RANDOM} 10%s")
        runner.tournament("plan", "disk/all", *both, "--seeds=3", *BOARD)
        runner.pass_trials("disk/all")
        done = runner.tournament("play", "disk/all", "--jobs=1")
        games: Dict[str, str] = runner.games("disk/all")
        assert sorted(games) == ["2_one_two", "2_two_one", "3_one_two", "3_two_one"]
        assert (done.status, done.output.splitlines()[-1]) == (1, "4 of 6 games have a result")
        assert "can't be written to" not in done.errors
        reported = re.findall("^tournament: ([0-9]\\w*): no result: ", done.errors, re.MULTILINE)
        assert reported == ["1_one_two", "1_two_one"]
    finally:
        runner.kill_all()
        subprocess.run(["umount", disk], check=True)
