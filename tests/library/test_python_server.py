"""The example of a server: its matches over sockets, and how it ends one."""
from __future__ import annotations

import socket
import subprocess
import sys
from concurrent.futures import ThreadPoolExecutor
from dataclasses import dataclass
from pathlib import Path
from typing import Any, Callable, Dict

import pytest

from tests.shared.processes import TIMEOUT, process_tree, run

from .games import Match, Play
from .python_package import PACKAGE, variables

SERVE_MATCH = [sys.executable, f"{PACKAGE}/examples/serve_match.py"]
SECONDS = 10  # in which a side has to answer
Client = Callable[[socket.socket], None]


@pytest.fixture(scope="module")
def environment(environment: Dict[str, str], shared_library: Path) -> Dict[str, str]:
    """Returns the environment, in which the package is found too."""
    return {**environment, **variables(shared_library)}


def client_of(command: str, environment: Dict[str, str]) -> Client:
    """Returns a client that is a program."""

    def client(connection: socket.socket) -> None:
        streams: Dict[str, Any] = {"stdin": connection, "stdout": connection}
        subprocess.run(command.split(), env=environment, timeout=TIMEOUT, **streams)

    return client


@dataclass(frozen=True)
class Answers:
    """A client that answers so many commands, a genmove by a pass.

    To the next command it is silent, or it closes.
    """

    most: int
    closes: bool = False

    def __call__(self, connection: socket.socket) -> None:
        with connection, connection.makefile("rwb", buffering=0) as lines:
            for _ in range(self.most):
                number, name, *_ = lines.readline().split()
                lines.write(b"=%s%s\n\n" % (number, b" pass" if name == b"genmove" else b""))
            lines.readline()
            while not self.closes and lines.readline():
                pass


STEADY = Answers(10**6)


def serve(
    black: Client, white: Client, seconds: int, environment: Dict[str, str]
) -> subprocess.CompletedProcess[str]:
    """Returns what the server of a match on 5x5 writes of these clients, without its port."""
    pipes: Dict[str, Any] = {"stdout": subprocess.PIPE, "stderr": subprocess.PIPE, "text": True}
    command = [*SERVE_MATCH, "5", "1", str(seconds)]
    with process_tree(command, env=environment, **pipes) as server, ThreadPoolExecutor() as pool:
        assert server.stdout
        port = int(server.stdout.readline())
        # the one that connects first plays Black
        connections = [socket.create_connection(("127.0.0.1", port)) for _ in range(2)]
        for client, connection in zip([black, white], connections):
            pool.submit(client, connection)
        output, errors = server.communicate(timeout=TIMEOUT)
    for connection in connections:
        connection.close()
    return subprocess.CompletedProcess(command, server.returncode, output, errors)


@pytest.mark.parametrize(
    "black, white, seconds, line",
    [
        pytest.param(Answers(3), STEADY, SECONDS, "W+T moves 0", id="a late Black"),
        pytest.param(STEADY, Answers(4), SECONDS, "B+T moves 1", id="a late White"),
        pytest.param(
            Answers(3, closes=True), STEADY, TIMEOUT, "abandoned black moves 0", id="Black closes"
        ),
        pytest.param(
            STEADY, Answers(1, closes=True), TIMEOUT, "abandoned white moves 0", id="White closes"
        ),
    ],
)
def test_failure_ends_the_match(
    black: Client, white: Client, seconds: int, line: str, environment: Dict[str, str]
) -> None:
    done = serve(black, white, seconds, environment)
    wanted = f"game 1: {line} restarts 0 0\n"
    assert (done.returncode, done.stdout, done.stderr) == (0, wanted, "")


def test_whole_match_is_that_of_twogtp(play: Play, environment: Dict[str, str]) -> None:
    match = Match(5, 1, *(f"gtp_engine --policy random --seed {seed}" for seed in (3, 9)))
    black, white = (client_of(it, environment) for it in (match.black, match.white))
    done = serve(black, white, TIMEOUT, environment)
    wanted = (0, match.by_twogtp(play).stdout, "")
    assert (done.returncode, done.stdout, done.stderr) == wanted


@pytest.mark.parametrize("words", ["", "9", "9 0", "x 0 1", "9 0 soon", "26 0 1", f"9 {2**32} 1"])
def test_mistake_in_the_arguments_is_one_line(words: str, environment: Dict[str, str]) -> None:
    done = run([*SERVE_MATCH, *words.split()], env=environment)
    assert (done.returncode, done.stdout, len(done.stderr.splitlines())) == (1, "", 1)
