"""Tournaments over a real ssh by GNU Parallel: two machines that are this one, each with an sshd.

    python3 -m pytest tests/by_hand/ssh.py

They need root, and Debian's packages openssh-server, openssh-client and parallel, and take a
minute. The games have to be those of an undisturbed run, whatever is done to a machine.
"""
from __future__ import annotations

import shutil
import signal
from collections.abc import Callable, Iterator
from pathlib import Path
from subprocess import Popen

import pytest

from tests.shared.processes import wait_until
from tests.tournament.runner import SCRIPTS, Runner, kill

from .conftest import PLAN, SLOW
from .slurm import free_ports

SSHD = "/usr/sbin/sshd"
SERVER = """\
Port {port}
ListenAddress 127.0.0.1
HostKey {folder}/host
AuthorizedKeysFile {folder}/key.pub
PidFile {folder}/{name}.pid
StrictModes no
UsePAM no
PermitRootLogin yes
MaxStartups 100
SetEnv {mark} TWOGTP={twogtp} PATH={path}
"""
CLIENT = """\
Host {name}
  HostName 127.0.0.1
  Port {port}
"""
CLIENTS = """\

Host *
  User root
  IdentityFile {folder}/key
  UserKnownHostsFile {folder}/known
  StrictHostKeyChecking no
  LogLevel ERROR
  BatchMode yes
  ServerAliveCountMax 1
"""
PLAY = """\
tournament list {folder}/far | parallel --will-cite --retries 5 --sshloginfile machines \\
    --ssh 'machine machines' {scripts}/tournament game {folder}/far
"""

pytestmark = [
    pytest.mark.root,
    pytest.mark.skipif(
        not all(map(shutil.which, (SSHD, "ssh", "ssh-keygen", "parallel"))),
        reason="they need openssh-server, openssh-client and parallel (apt-get install ..)",
    ),
]


class Machines:
    """Two machines in the folder of a runner, and a third where nobody answers."""

    def __init__(self, runner: Runner) -> None:
        self.runner = runner
        self.servers: dict[str, Popen[str]] = {}
        folder = runner.folder
        runner.environment |= {"SHELL": "/bin/bash", "HOME": str(folder)}
        for key in ("host", "key"):
            runner.run("ssh-keygen", "-q", "-t", "ed25519", "-N", "", "-f", folder / key)
        Path("/run/sshd").mkdir(exist_ok=True)
        (folder / "tools").mkdir()
        runner.script("tools/ssh", f'exec /usr/bin/ssh -F {folder}/config "$@"')
        ports = dict(zip(("one", "two", "gone"), free_ports(3)))
        config = "".join(CLIENT.format(name=name, port=port) for name, port in ports.items())
        runner.write("config", config + CLIENTS.format(folder=folder))
        for name in ("one", "two"):
            self.serve(name, ports[name])
        runner.environment["PATH"] = f"{folder}/tools:{runner.environment['PATH']}"
        runner.write("machines", "2/one\n2/gone\n2/two\n")

    def serve(self, name: str, port: int) -> None:
        """Starts the server of a machine. The runner finds its sessions too."""
        runner, folder = self.runner, self.runner.folder
        (folder / name).mkdir()
        text = SERVER.format(
            port=port,
            folder=folder,
            name=name,
            mark=runner.mark,
            twogtp=runner.environment["TWOGTP"],
            path=f"{folder}/{name}:{runner.environment['PATH']}",
        )
        file = runner.write(f"{name}.conf", text)
        with open(folder / f"{name}.log", "wb") as log:
            self.servers[name] = runner.start(SSHD, "-D", "-e", "-f", file, stdout=log, stderr=log)

    def are_up(self) -> bool:
        """Waits until both servers answer, and tells whether they do."""
        return wait_until(
            lambda: all(self.runner.run("ssh", it, "true").status == 0 for it in self.servers)
        )

    def send(self, name: str, number: signal.Signals) -> None:
        """Sends a signal to a machine's server and its connections, and to nothing that was started
        over them."""
        pids = [self.servers[name].pid]
        for pid in pids:
            children = Path(f"/proc/{pid}/task/{pid}/children").read_text().split()
            names = {child: Path(f"/proc/{child}/comm").read_text() for child in children}
            pids += [int(child) for child, name in names.items() if name == "sshd\n"]
        for pid in pids:
            kill(pid, number)


@pytest.fixture
def machines(runner: Runner) -> Iterator[Machines]:
    """Returns machines that are up, and has the tournament `far` planned there."""
    made = Machines(runner)
    try:
        assert made.are_up()
        assert runner.tournament("plan", "far", *PLAN).status == 0
        yield made
    finally:
        for server in made.servers.values():  # whose titles hide their environments
            server.kill()


def check_games(
    machines: Machines, wanted: dict[str, str], disturb: Callable[[], None] = lambda: None
) -> list[str]:
    """Plays all games while something is disturbed, and fails where they aren't those wanted.

    Returns the machines of the file of machines, in which `# ` is before one that has left.
    """
    runner = machines.runner
    play = PLAY.format(folder=runner.folder, scripts=SCRIPTS)
    process = runner.start("bash", "-c", play)
    disturb()
    done = runner.finish(process)
    runner.wait_until(lambda: not runner.named("twogtp") + runner.named("gtp_engine"))
    assert runner.games("far") == wanted, done.errors
    lines = (runner.folder / "machines").read_text().splitlines()
    return [line.split(" left: ")[0] for line in lines]


def test_machine_that_is_not_reached_leaves(
    machines: Machines, undisturbed: dict[str, str]
) -> None:
    assert check_games(machines, undisturbed) == ["2/one", "# 2/gone", "2/two"]


def test_other_machine_plays_the_rest_where_connections_are_lost(
    machines: Machines, undisturbed: dict[str, str]
) -> None:
    def cut() -> None:
        machines.runner.wait_until(lambda: len(machines.runner.games("far")) > 1)
        machines.send("one", signal.SIGKILL)

    assert check_games(machines, undisturbed, cut) == ["# 2/one", "# 2/gone", "2/two"]


def test_other_machine_plays_the_rest_where_one_freezes(
    machines: Machines, undisturbed: dict[str, str]
) -> None:
    """The first message that isn't answered within fifteen seconds ends the connections."""
    machines.runner.script("slow", f"echo $1 >> starts\n{SLOW}")

    def freeze() -> None:
        machines.runner.wait_until(lambda: len(machines.runner.games("far")) > 1)
        machines.send("one", signal.SIGSTOP)

    try:
        assert check_games(machines, undisturbed, freeze) == ["# 2/one", "# 2/gone", "2/two"]
    finally:
        machines.send("one", signal.SIGKILL)
    # both engines of 16 games, none of which is played twice, and two trials
    assert len((machines.runner.folder / "starts").read_text().split()) == 2 * 16 + 2


def test_machine_without_an_engine_leaves(machines: Machines, undisturbed: dict[str, str]) -> None:
    machines.runner.script("one/gtp_engine", "#!/nowhere\n")
    assert check_games(machines, undisturbed) == ["# 2/one", "# 2/gone", "2/two"]
