"""The program twogtp: where it is, and how it is started."""
from __future__ import annotations

import os
import signal
import sys
from typing import NamedTuple, Sequence

from .. import processes
from ..output import Mistake

HERE = os.path.dirname(os.path.dirname(os.path.dirname(os.path.realpath(__file__))))
NEARBY = ("../bin", "../../bin")  # where it lies next to these scripts, in a clone, in an archive
# signals that no twogtp inherits as ignored; not SIGXFSZ: a file that is too long is reported
DEFAULT_SIGNALS = (signal.SIGTERM, signal.SIGINT, signal.SIGHUP, signal.SIGPIPE)


def is_program(place: str) -> bool:
    """Returns whether it is a file that may be executed."""
    return os.path.isfile(place) and os.access(place, os.X_OK)


def find(name: str, folder: str = "") -> str | None:
    """Returns the place of a program that is started in a folder by this name, if it is there."""
    folders = [""] if "/" in name else os.environ.get("PATH", os.defpath).split(":")
    places = (os.path.join(folder, each, name) for each in folders)
    return next((place for place in places if is_program(place)), None)


def find_twogtp() -> str:
    """Returns the place of twogtp: that of TWOGTP, the one next to these scripts, or the one in
    PATH."""
    name = os.environ.get("TWOGTP") or nearby_or_in_path("twogtp")
    place = find(name)
    if not place:
        raise Mistake(f"there is no {name}: set TWOGTP to its path")
    return os.path.abspath(place)


def nearby_or_in_path(name: str) -> str:
    """Returns the place of a program next to these scripts; its name where none is there."""
    nearby = [os.path.realpath(f"{HERE}/{folder}/{name}") for folder in NEARBY]
    return next((place for place in nearby if is_program(place)), name)


def start(command: list[str], folder: str, result: int, log: int) -> tuple[int, str]:
    """Starts twogtp, which reads nothing and writes into these files. It ends with this process.
    Returns its process, and why it can't be started; an empty text where it was."""
    with open(os.devnull, "rb") as nothing:
        streams = (nothing.fileno(), result, log)
        return processes.start_program(command, folder, streams, DEFAULT_SIGNALS)


def between() -> str:
    """Returns the command of `between` in the folder of these scripts. twogtp splits it at spaces,
    so a path that has one isn't in it."""
    python = sys.executable or " "
    return "./between" if " " in python else f"{python} -S -E between"


class Printed(NamedTuple):
    """What a program printed, and its status."""

    text: str
    status: int


def version_of(twogtp: str) -> str:
    """Returns the version of twogtp; an empty text where it says none."""
    return printed_by([twogtp, "--version"]).text.partition("\n")[0].partition(" ")[2]


def printed_by(command: list[str]) -> Printed:
    """Runs a program, and returns what it printed."""
    reads, writes = os.pipe()
    files = [
        (os.POSIX_SPAWN_OPEN, 0, os.devnull, os.O_RDONLY, 0),
        (os.POSIX_SPAWN_DUP2, writes, 1),
        (os.POSIX_SPAWN_DUP2, writes, 2),
    ]
    process = os.posix_spawn(
        command[0],
        command,
        os.environ,
        file_actions=files,
        setsigmask=(),
        setsigdef=DEFAULT_SIGNALS,
    )
    os.close(writes)
    with open(reads, "rb") as file:
        text = os.fsdecode(file.read())
    return Printed(text, os.waitstatus_to_exitcode(os.waitpid(process, 0)[1]))


def try_options(twogtp: str, options: Sequence[str]) -> None:
    """Raises Mistake unless twogtp takes these options. It plays a game of two programs that end at
    once."""
    if any(option == "--games" or option.startswith("--games=") for option in options):
        raise Mistake(
            "leave out --games: each game is a run of its own, with its seed; --seeds says how many"
        )
    engines = ["--black", "true", "--white", "true"]
    printed = printed_by([twogtp, "--why", "--record", *engines, *options])
    if printed.status < 0:
        reason = f"{twogtp} was ended by signal {-printed.status} when its options were tried"
        raise OSError(0, f"{reason}: give the command again")
    if printed.status != 1 or "game 1: abandoned black" not in printed.text:
        raise Mistake(
            f"{twogtp} doesn't play with the options '{' '.join(options)}': status "
            f"{printed.status}",
            printed.text,
        )
