"""Runs the scripts for tournaments, and finds all that they start."""
from __future__ import annotations

import contextlib
import os
import secrets
import signal
import subprocess
from pathlib import Path
from types import TracebackType
from typing import Any, Callable, Dict, List, NamedTuple, Optional, Type

from tests.shared import fast_start
from tests.shared.processes import TIMEOUT, TOP, wait_until

SCRIPTS = TOP / "tournament"
RANDOM = "gtp_engine --policy random --seed"
SMALL = ["--", "--size", "5", "--komi", "0.5"]


def engines(**commands: str) -> List[str]:
    """Returns the options that give a tournament these engines."""
    return [f"--engine={name}={command}" for name, command in commands.items()]


TWO = engines(one=f"{RANDOM} %s", two=f"{RANDOM} 10%s")  # no game of them is like another


class Done(NamedTuple):
    """What came of a command."""

    status: int
    output: str
    errors: str


class Process(NamedTuple):
    """A process that runs."""

    pid: int
    name: str  # of 15 bytes at most
    command: str


def default_signals() -> None:
    """Has these signals end a process, also where a shell or nohup has them ignored."""
    for number in (signal.SIGHUP, signal.SIGINT, signal.SIGTERM):
        signal.signal(number, signal.SIG_DFL)


class Runner:
    """Runs commands in a directory, where the scripts and the programs are found.

    All that they start is known by a variable of its environment, and is killed at the end.
    """

    def __init__(self, folder: Path, programs: Path) -> None:
        self.folder = folder
        self.programs = programs
        self.mark = f"TOURNAMENT_TEST={secrets.token_hex(8)}"
        name, value = self.mark.split("=")
        self.environment: Dict[str, str] = {
            **fast_start.environment(fast_start.compiled(SCRIPTS), programs),
            name: value,
            "TWOGTP": str(programs / "twogtp"),
        }
        self.environment.pop("TOURNAMENT", None)
        self.started: List[subprocess.Popen[str]] = []

    def __enter__(self) -> Runner:
        return self

    def __exit__(
        self,
        kind: Optional[Type[BaseException]],
        error: Optional[BaseException],
        trace: Optional[TracebackType],
    ) -> None:
        self.kill_all()
        for process in self.started:
            # which closes its streams, also that of a text which nobody reads, and waits for its
            # end
            with contextlib.suppress(BrokenPipeError), process:
                pass

    def start(self, *command: object, **options: Any) -> subprocess.Popen[str]:
        """Starts a command in a session of its own."""
        options = {
            "cwd": self.folder,
            "env": self.environment,
            "stdin": subprocess.DEVNULL,
            "stdout": subprocess.PIPE,
            "stderr": subprocess.PIPE,
            "encoding": "utf-8",
            "errors": "backslashreplace",
            "preexec_fn": default_signals,
            **options,
        }
        process: subprocess.Popen[str] = subprocess.Popen(
            list(map(str, command)), start_new_session=True, **options
        )
        self.started.append(process)
        return process

    def finish(self, process: subprocess.Popen[str]) -> Done:
        """Waits for the end of a process, and returns what came of it."""
        try:
            output, errors = process.communicate(timeout=TIMEOUT)
        except subprocess.TimeoutExpired:
            self.kill_all()
            raise
        return Done(process.returncode, output or "", errors or "")

    def run(self, *command: object, **options: Any) -> Done:
        """Returns what comes of a command."""
        return self.finish(self.start(*command, **options))

    def tournament(self, *words: object, **options: Any) -> Done:
        """Returns what comes of `tournament` with these arguments."""
        return self.run("tournament", *words, **options)

    def tally(self, *words: object) -> Done:
        """Returns what comes of `tally` with these arguments."""
        return self.run("tally", *words)

    def shell(self, text: str, *words: object, **options: Any) -> Done:
        """Returns what comes of a text for bash, with these arguments."""
        return self.run("bash", "-c", text, "bash", *words, **options)

    # ---- processes

    def processes(self) -> List[Process]:
        """Returns the processes that were started here and haven't ended."""
        found, mark = [], self.mark.encode()
        for number in filter(str.isdigit, os.listdir("/proc")):
            place = f"/proc/{number}"
            with contextlib.suppress(OSError):
                if mark not in read(f"{place}/environ").split(b"\0"):
                    continue
                command = read(f"{place}/cmdline").replace(b"\0", b" ").decode()
                name = read(f"{place}/comm").decode().rstrip("\n")
                found.append(Process(int(number), name, command))
        return found

    def named(self, name: str) -> List[int]:
        """Returns the processes that were started here and have this name."""
        return [process.pid for process in self.processes() if process.name == name[:15]]

    def is_idle(self) -> bool:
        """Waits until all that was started here has ended, and tells whether that is so."""
        return wait_until(lambda: not self.processes())

    def kill_all(self) -> None:
        """Kills all that was started here."""
        for process in self.processes():
            kill(process.pid)

    def wait_for(self, *names: str) -> None:
        """Waits until there is a process of each of these names."""
        assert wait_until(lambda: all(map(self.named, names))), (names, self.processes())

    def wait_until(self, condition: Callable[[], bool]) -> None:
        """Waits until this is so."""
        assert wait_until(condition), self.processes()

    # ---- files

    def write(self, name: str, text: str) -> Path:
        """Writes a file."""
        place = self.folder / name
        place.write_text(text)
        return place

    def script(self, name: str, text: str) -> Path:
        """Writes a script, for bash where its first line doesn't say by what it is run."""
        place = self.write(name, text if text.startswith("#!") else f"#!/bin/bash\n{text}\n")
        place.chmod(0o755)
        return place

    def files(self, folder: str) -> Dict[str, str]:
        """Returns the texts of the files in a directory, by their names."""
        return {place.name: place.read_text() for place in (self.folder / folder).iterdir()}

    def games(self, folder: str = "all") -> Dict[str, str]:
        """Returns the results of a tournament, by the names of the games."""
        return self.files(f"{folder}/games")

    def pass_trials(self, folder: str = "all", *names: str) -> None:
        """Has these engines of a plan, or all of them, pass for tried on this machine."""
        from .inside import module  # which needs this module

        plan = module("config.plan_file").read_plan(str(self.folder / folder))
        where, options = plan.folder or str(self.folder), plan.options
        size, komi = (
            options[options.index(name) + 1] if name in options else default
            for name, default in (("--size", "19"), ("--komi", "6.5"))
        )
        board = f"size {size} komi {komi} handicap 0{' directly' if plan.is_direct else ''}"
        board += f" clock {plan.clock}" if plan.clock else ""
        place = self.folder / folder / "tried" / os.uname().nodename
        place.mkdir(parents=True, exist_ok=True)
        commands = [plan.engines[name].command for name in names or plan.engines]
        passed = [f"passed {command}\t{where}\t{board}\n" for command in commands]
        (place / "passed").write_text("".join(passed))


class Played(NamedTuple):
    """A tournament that was played, by what has played it."""

    runner: Runner
    done: Done


def read(place: str) -> bytes:
    """Returns what is in a file. It is called for each process very often."""
    with open(place, "rb", buffering=0) as file:
        return file.read()


def kill(pid: int, number: signal.Signals = signal.SIGKILL) -> None:
    """Sends a process a signal, if it hasn't ended."""
    with contextlib.suppress(ProcessLookupError):
        os.kill(pid, number)
