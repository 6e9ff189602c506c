"""What a shell has started before it becomes the run, or for its output, is none of the run's."""
from __future__ import annotations

import signal
import subprocess
from typing import Optional

import pytest

from .misbehaving import WAITS
from .runner import SMALL, Runner, engines, kill

# It starts others, becomes `tournament`, and so is their parent. One of them leaves what it starts,
# some of that late, in a session of its own.
BECOMES = """\
sleep 1001 &
later='(sleep 1.5; setsid -f sleep 1004) &'
sh -c "sleep 1002 & setsid -f sleep 1003; setsid sh -c '$later'; exec sleep 1005" &
exec tournament play all --jobs 1
"""
STAY = {f"sleep {number}" for number in range(1001, 1006)}


def commands(runner: Runner) -> "set[str]":
    """Returns the commands of the processes that are left."""
    return {process.command.strip() for process in runner.processes()}


@pytest.mark.parametrize(
    "name, number, status",
    [
        pytest.param("", None, 0, id="it ends by itself"),
        pytest.param("tournament", signal.SIGTERM, 143, id="TERM"),
        pytest.param("tournament", signal.SIGINT, 130, id="INT"),
        pytest.param("tournament", signal.SIGKILL, -signal.SIGKILL, id="KILL"),
        pytest.param("game 1_one_two", signal.SIGKILL, 1, id="a game's process is killed"),
    ],
)
def test_children_of_a_shell_live_on(
    name: str, number: Optional[signal.Signals], status: int, runner: Runner
) -> None:
    waits = runner.script("waits", WAITS)
    both = engines(one=f"{waits} %s '' 1", two="gtp_engine")
    runner.tournament("plan", "all", *both, "--seeds", "1", *SMALL)
    runner.pass_trials()
    unread = {"stdout": subprocess.DEVNULL, "stderr": subprocess.DEVNULL}
    process = runner.start("bash", "-c", BECOMES, **unread)
    runner.wait_for("game 1_one_two", "twogtp")
    if number:
        killed = process.pid if name == "tournament" else runner.named(name)[0]
        kill(killed, number)
        runner.wait_until(lambda: killed not in {process.pid for process in runner.processes()})
    runner.write("go", "")
    assert runner.finish(process).status == status
    runner.wait_until(lambda: commands(runner) == STAY)


def test_process_substitution_gets_all_lines(runner: Runner) -> None:
    both = engines(one="gtp_engine", two="gtp_engine")
    runner.tournament("plan", "all", *both, "--seeds", "1", *SMALL)
    # however late it reads
    late = "while [ ! -e go ]; do sleep 0.05; done; cat > log; echo > done"
    text = (
        f"mkfifo done; tournament play all --jobs 1 > >({late}); echo $?; touch go; read -r < done"
    )
    assert runner.shell(text) == (0, "0\n", "")
    lines = (runner.folder / "log").read_text().splitlines()
    assert (len(lines), lines[-1]) == (3, "2 of 2 games have a result")
