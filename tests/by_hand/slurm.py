"""Tournaments on a real Slurm: two nodes on this machine, which the tests start and end.

    python3 -m pytest tests/by_hand/slurm.py

They need root, and Debian's packages slurm-wlm and munge, and take some five minutes.
"""
from __future__ import annotations

import contextlib
import os
import re
import shutil
import signal
import socket
from collections.abc import Iterator, Sequence
from pathlib import Path
from subprocess import Popen

import pytest

from tests.shared.processes import kill_tree, wait_until
from tests.tournament.runner import SCRIPTS, Runner, kill

from .conftest import PLAN, SLOW

CONFIGURATION = """\
ClusterName=trial
SlurmctldHost={host}(127.0.0.1)
SlurmctldPort={port}
SlurmUser=root
AuthType=auth/munge
AuthInfo=socket={folder}/munge.socket
StateSaveLocation={folder}/state
SlurmctldPidFile={folder}/slurmctld.pid
SlurmctldLogFile={folder}/slurmctld.log
SlurmdSpoolDir={folder}/spool.%n
SlurmdPidFile={folder}/%n.pid
SlurmdLogFile={folder}/%n.log
ProctrackType=proctrack/linuxproc
TaskPlugin=task/none
MpiDefault=none
SelectType=select/cons_tres
SelectTypeParameters=CR_CPU
ReturnToService=2
SlurmdTimeout=10
KillWait=2
SlurmdParameters=config_overrides
NodeName=one NodeAddr=127.0.0.1 Port={one} CPUs=2
NodeName=two NodeAddr=127.0.0.1 Port={two} CPUs=2
PartitionName=all Nodes=ALL Default=YES State=UP
"""
EACH = """\
#!/bin/bash
#SBATCH --cpus-per-task={jobs} --time={minutes}
exec tournament play far --jobs {jobs} --time-left "$(squeue -h -j $SLURM_JOB_ID -o %L)"
"""
NODES = ["one", "two"]
TASKS = 4
LIMIT = 600  # seconds in which each job ends, unless something hangs
SERVICES = ["sbatch", "munged", "slurmctld", "slurmd"]
PATH = f"{os.environ['PATH']}:/usr/bin:/usr/sbin"

pytestmark = [
    pytest.mark.root,
    pytest.mark.skipif(
        not all(shutil.which(name, path=PATH) for name in SERVICES),
        reason="there is no Slurm (apt-get install slurm-wlm munge)",
    ),
]


def free_ports(count: int) -> list[int]:
    """Returns ports of this machine that nobody listens to."""
    sockets = [socket.socket() for _ in range(count)]
    for one in sockets:
        one.bind(("127.0.0.1", 0))
    ports = [one.getsockname()[1] for one in sockets]
    for one in sockets:
        one.close()
    return ports


class Cluster:
    """A Slurm of two nodes, in the folder of a runner."""

    def __init__(self, runner: Runner) -> None:
        self.runner = runner
        self.folder = folder = runner.folder / "slurm"
        self.nodes: dict[str, Popen[str]] = {}
        (folder / "state").mkdir(parents=True)
        (folder / "key").write_bytes(os.urandom(1024))
        (folder / "key").chmod(0o400)
        host, (port, one, two) = socket.gethostname().split(".")[0], free_ports(3)
        text = CONFIGURATION.format(folder=folder, host=host, port=port, one=one, two=two)
        (folder / "slurm.conf").write_text(text)
        runner.environment |= {"SLURM_CONF": str(folder / "slurm.conf"), "TZ": "UTC"}
        runner.environment["PATH"] += ":/usr/bin:/usr/sbin"
        self.serve(
            "munged",
            "--foreground",
            "--force",
            f"--key-file={folder}/key",
            f"--socket={folder}/munge.socket",
            f"--pid-file={folder}/munged.pid",
            f"--log-file={folder}/munged.log",
            f"--seed-file={folder}/seed",
        )
        runner.wait_until((folder / "munge.socket").exists)
        self.serve("slurmctld", "-D")
        for node in NODES:
            self.start_node(node)

    def serve(self, name: str, *words: str, before: Sequence[str] = ()) -> Popen[str]:
        """Starts a service, by the words before its command if there are some."""
        command = [*before, f"/usr/sbin/{name}", *words]
        with open(self.folder / f"{name}.out", "ab") as log:
            return self.runner.start(*command, stdout=log, stderr=log)

    def start_node(self, node: str) -> None:
        """Starts a node, which has a host name of its own."""
        named = ["unshare", "-u", "bash", "-c", 'hostname "$0" && exec "$@"', node]
        self.nodes[node] = self.serve("slurmd", "-D", before=named)

    def is_up(self) -> bool:
        """Waits until both nodes are up, and tells whether they are."""
        states = ["sinfo", "-h", "-N", "-o", "%N %t"]
        return wait_until(lambda: self.output(*states) == "one idle\ntwo idle\n")

    def output(self, *command: object) -> str:
        """Returns what a command of Slurm prints."""
        return self.runner.run(*command).output

    def kill(self, node: str) -> None:
        """Kills a node and all that runs there at one moment, as a power cut would."""
        pids = [self.nodes[node].pid, *self.processes_on(node)]
        for number in (signal.SIGSTOP, signal.SIGKILL):
            for pid in pids:
                kill(pid, number)

    def processes_on(self, node: str) -> list[int]:
        """Returns the processes of the tasks on a node, and those of Slurm that watch them."""
        found = []
        for process in self.runner.processes():
            with contextlib.suppress(OSError):
                folder = Path(f"/proc/{process.pid}")
                environment = (folder / "environ").read_bytes().split(b"\0")
                if f"SLURMD_NODENAME={node}".encode() in environment:
                    found.append(process.pid)
                    parent = int((folder / "stat").read_text().rsplit(")", 1)[1].split()[1])
                    if "slurmstepd" in Path(f"/proc/{parent}/comm").read_text():
                        found.append(parent)
        return found

    def submit(self, *options: str, tasks: int = TASKS, array: str = "") -> str:
        """Submits the tournament `far` as an array, and returns its number."""
        numbers = f"--array={array or f'1-{tasks}'}"
        script = SCRIPTS / "tournament.sbatch"
        return self.output("sbatch", "--parsable", numbers, *options, script, "far", tasks).strip()

    def submit_to_each(self, jobs: int, minutes: int) -> list[str]:
        """Submits a job of one's own once for each node, with so many games at once and minutes.

        Returns the numbers of the jobs.
        """
        text = EACH.replace("{jobs}", str(jobs)).replace("{minutes}", str(minutes))
        script = self.runner.script("each", text)
        return [self.output("sbatch", "--parsable", "-w", it, script).strip() for it in NODES]

    def state(self, number: str) -> str:
        """Returns the state, status and node of a job."""
        job = self.output("scontrol", "-o", "show", "job", number)
        return " ".join(re.findall(r" (?:JobState|ExitCode|NodeList)=(\S*)", job))

    def is_idle(self) -> bool:
        """Waits until no job is left, and tells whether that is so."""
        return wait_until(lambda: self.runner.run("squeue", "-h")[:2] == (0, ""), LIMIT)

    def wait_for_games(self, count: int) -> None:
        """Waits until so many games have a result."""
        self.runner.wait_until(lambda: len(self.runner.games("far")) >= count)

    def logs(self) -> str:
        """Returns what the tasks have written."""
        logs = sorted(self.runner.folder.glob("tournament.*.log"))
        return "".join(log.read_text() for log in logs)


@pytest.fixture
def cluster(runner: Runner) -> Iterator[Cluster]:
    """Returns a cluster whose nodes are up, and has the tournament `far` planned there."""
    made = Cluster(runner)
    try:
        assert made.is_up()
        assert runner.tournament("plan", "far", *PLAN).status == 0
        yield made
    finally:
        for service in runner.started:
            kill_tree(service.pid)


def test_array_plays_all_games(cluster: Cluster, undisturbed: dict[str, str]) -> None:
    games = cluster.runner.folder / "far/games"
    # a task begins no game that doesn't fit into the time that is left
    assert cluster.submit("--time=1", array="1").isdigit()
    assert cluster.is_idle()
    assert 0 < len(cluster.runner.games("far")) <= 4
    cluster.submit("--time=10")
    assert cluster.is_idle()
    assert cluster.runner.games("far") == undisturbed, cluster.logs()
    dates = {place: place.stat().st_mtime_ns for place in games.iterdir()}
    cluster.submit("--time=10")
    assert cluster.is_idle()
    assert {place: place.stat().st_mtime_ns for place in games.iterdir()} == dates


def test_two_submissions_share_the_games(cluster: Cluster, undisturbed: dict[str, str]) -> None:
    cluster.submit("--time=10")
    cluster.submit("--time=10", tasks=2)
    assert cluster.is_idle()
    assert cluster.runner.games("far") == undisturbed, cluster.logs()
    assert "failed" not in cluster.logs()


def test_other_node_plays_the_games_of_a_killed_one(
    cluster: Cluster, undisturbed: dict[str, str]
) -> None:
    running = ["squeue", "-h", "-t", "R", "-o", "%N"]
    cluster.submit("--time=10", "--requeue")
    cluster.runner.wait_until(lambda: "two" in cluster.output(*running).split())
    cluster.wait_for_games(2)
    cluster.kill("two")
    assert cluster.is_idle()
    assert cluster.runner.games("far") == undisturbed, cluster.logs()


def check_cancelled(cluster: Cluster, numbers: list[str]) -> None:
    """Cancels jobs once they have played some games, and fails where an engine is left."""
    runner = cluster.runner
    cluster.wait_for_games(len(runner.games("far")) + 2)
    runner.run("scancel", *numbers)
    assert cluster.is_idle()
    runner.wait_until(lambda: not runner.named("gtp_engine") + runner.named("twogtp"))


def test_nothing_is_left_of_what_is_cancelled(
    cluster: Cluster, undisturbed: dict[str, str]
) -> None:
    check_cancelled(cluster, [cluster.submit("--time=10")])
    numbers = cluster.submit_to_each(1, 10)
    check_cancelled(cluster, numbers)
    # each job has ended as by TERM
    states = ["CANCELLED 143:0 one", "CANCELLED 143:0 two"]
    assert [cluster.state(number) for number in numbers] == states
    for array in ("2,4", "1-4"):
        cluster.submit("--time=10", array=array)
        assert cluster.is_idle()
    assert cluster.runner.games("far") == undisturbed, cluster.logs()


def test_node_without_an_engine_is_left(cluster: Cluster, undisturbed: dict[str, str]) -> None:
    """Slurm lets a task wait two minutes for that."""
    cluster.runner.script("slow", f'[ "$SLURMD_NODENAME" = one ] || exit 7\n{SLOW}')
    cluster.submit("--time=10")
    assert cluster.is_idle()
    assert cluster.runner.games("far") == undisturbed, cluster.logs()
    moved = "can't start an engine on two, and goes to another node\n"
    assert 1 <= cluster.logs().count(moved) <= TASKS
    assert "on one" not in cluster.logs()


def test_job_for_each_node(cluster: Cluster, undisturbed: dict[str, str]) -> None:
    """First the jobs have too little time, and then enough."""
    runner = cluster.runner
    recorded = f"echo $1 >> starts\n{SLOW}"
    runner.script("slow", recorded.replace("0.5", "4"))
    short = cluster.submit_to_each(1, 1)
    assert cluster.is_idle()
    failed = ["FAILED 1:0 one", "FAILED 1:0 two"]
    assert [cluster.state(number) for number in short] == failed
    # no game was cut off
    assert {place.name for place in (runner.folder / "far/notes").iterdir()} == {
        *runner.games("far")
    }
    runner.script("slow", recorded)
    long = cluster.submit_to_each(2, 10)
    assert cluster.is_idle()
    # one of them may end with status 1 while the other plays
    states = [cluster.state(number) for number in long]
    assert states != failed and {*states} <= {"COMPLETED 0:0 one", "COMPLETED 0:0 two", *failed}
    assert runner.games("far") == undisturbed
    outputs = [(runner.folder / f"slurm-{number}.out").read_text() for number in short + long]
    no_time = "30 seconds doesn't fit into the time left"
    assert [output.count(no_time) for output in outputs] == [1, 1, 0, 0]
    played = [re.findall(r"^[0-9]+ of 16: (.*?):", it, re.MULTILINE) for it in outputs]
    assert all(played)
    assert sorted(sum(played, [])) == sorted(undisturbed)
    # both engines of 16 games, and two trials on each node
    assert len((runner.folder / "starts").read_text().split()) == 2 * 16 + 2 * 2


def test_job_of_a_killed_node_waits_for_it(cluster: Cluster, undisturbed: dict[str, str]) -> None:
    one, two = cluster.submit_to_each(1, 10)
    cluster.wait_for_games(3)
    cluster.kill("two")
    assert wait_until(lambda: cluster.state(one) == "COMPLETED 0:0 one", LIMIT)
    assert cluster.runner.games("far") == undisturbed
    cluster.runner.wait_until(lambda: cluster.state(two).startswith("PENDING"))
    # now, and not in two minutes
    cluster.runner.run("scontrol", "update", f"JobId={two}", "StartTime=now")
    cluster.runner.wait_until(lambda: "two" in cluster.output("squeue", "-h", "-o", "%r"))
    cluster.start_node("two")
    assert wait_until(lambda: cluster.state(two) == "COMPLETED 0:0 two", LIMIT)
