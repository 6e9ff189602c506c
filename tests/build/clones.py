"""Small clones for tests of ./build: the scripts of the repository, and crates of a few lines."""
from __future__ import annotations

import contextlib
import hashlib
import os
import re
import shutil
import signal
import subprocess
import time
from pathlib import Path
from subprocess import CompletedProcess
from typing import Any, Dict, Iterator, List, NamedTuple

from tests.shared.processes import TIMEOUT, TOP, Process, process_tree, run, wait_until

LONG = 30 * TIMEOUT  # a proof of these crates takes seconds, and on a busy machine minutes
COPIED = ["build", "demo", "test", "release", "packaging"]
# Where `rt ci` has proved the same before, it leaves no library. So no two runs are alike.
RUN = time.time_ns()
FILES = {
    "HANDLES": "Handles allowed: none.\n",
    "crates.txt": """\
small_base:
small: small_base
vintsaky staticlib: small_base
""",
    "crates/small_base/src/lib.rt": f"""\
#![tactic(auto)]

// run {RUN}
pub fn number() -> usize {{
    7
}}
""",
    "crates/small/src/main.rt": """\
#![tactic(auto)]

use small_base;
use std::io;

fn main(rt: HostRuntime) -> io::Result<()> {
    let number = small_base::number();
    println!(rt; "{number}")
}
""",
    "crates/small/stdout": "7\n",
    "crates/vintsaky/src/lib.rt": """\
#![tactic(auto)]

use small_base;

#[unsafe(no_mangle)]
pub extern "C" fn vintsaky_number() -> usize {
    small_base::number()
}
""",
}


class Gate(NamedTuple):
    """What comes of `rt ci`: the files that no check reads, the last line, and the status."""

    unread: List[str]
    last: str
    status: int


class Clone(NamedTuple):
    """A clone, and the folder where its builds keep what they make."""

    folder: Path
    cache: Path

    def options(self, **environment: str) -> Dict[str, Any]:
        """Returns the options of a command that runs there, with these variables."""
        own = {**os.environ, "XDG_CACHE_HOME": str(self.cache), **environment}
        return {"cwd": self.folder, "env": own}

    def run(self, *words: object, **environment: str) -> CompletedProcess[str]:
        """Returns what comes of a command there."""
        return run(words, timeout=LONG, **self.options(**environment))

    def kind(self, name: str) -> str:
        """Returns how a file in bin/ was made, in one word, or nothing."""
        printed: str = self.run("packaging/built", name).stdout
        return printed.strip()

    def gate(self) -> Gate:
        """Returns what comes of `rt ci`."""
        done = run(["rt", "ci"], timeout=LONG, stderr=subprocess.STDOUT, **self.options())
        lines = done.stdout.splitlines() or [""]
        unread = [line for line in lines if line.startswith("rt: no check reads")]
        return Gate(unread, lines[-1], done.returncode)

    def sum_of(self, name: str) -> str:
        """Returns the sum of a file."""
        return hashlib.sha256((self.folder / name).read_bytes()).hexdigest()

    def change(self, name: str, old: str, new: str) -> None:
        """Replaces a text in a file."""
        file = self.folder / name
        file.write_text(file.read_text().replace(old, new))

    @contextlib.contextmanager
    def proving(self, output: Path) -> Iterator[Process]:
        """Starts a build, and waits until the first crate is being proved."""
        with open(output, "w") as file, process_tree(
            ["./build", "small"],
            LONG,
            stdin=subprocess.DEVNULL,
            stdout=file,
            stderr=subprocess.STDOUT,
            **self.options(),
        ) as build:
            crate = self.folder / "crates/small_base"
            is_proving = wait_until(lambda: build.poll() is not None or bool(provers(crate)))
            assert is_proving and build.poll() is None, output.read_text()
            yield build


def make_clone(folder: Path, name: str, cache: str = "cache") -> Clone:
    """Returns a new clone in this folder, with nothing built. Its cache is there too."""
    clone = folder / name
    (clone / ".git").mkdir(parents=True)
    for name in COPIED:
        if (TOP / name).is_dir():
            shutil.copytree(TOP / name, clone / name)
        else:
            shutil.copy(TOP / name, clone / name)
    for name, text in FILES.items():
        (clone / name).parent.mkdir(parents=True, exist_ok=True)
        (clone / name).write_text(text)
    return Clone(clone, folder / cache)


def processes_below(folder: Path) -> List[int]:
    """Returns the processes that run in a folder or below it."""
    found = []
    for process in Path("/proc").glob("[0-9]*"):
        with contextlib.suppress(OSError):
            if folder in [(place := Path(os.readlink(process / "cwd"))), *place.parents]:
                found.append(int(process.name))
    return found


def provers(crate: Path) -> List[int]:
    """Returns the processes of the kit that prove a crate.

    Before that they are bash and setpriv, which lets them end with the build.
    """
    found = []
    for process in processes_below(crate):
        with contextlib.suppress(OSError):
            words = Path(f"/proc/{process}/cmdline").read_bytes().split(b"\0")
            if b"--crate-name" in words and b"--pdeathsig" not in words:
                found.append(process)
    return found


def kill_below(folder: Path) -> None:
    """Kills what runs in a folder or below it."""
    for process in processes_below(folder):
        with contextlib.suppress(ProcessLookupError):
            os.kill(process, signal.SIGKILL)


def proved_by(output: str) -> List[str]:
    """Returns the crates that a build has proved."""
    return re.findall("^build: (.*) is proved, ", output, re.MULTILINE)


def last_line(output: str) -> str:
    """Returns the last line of a build, without the seconds that it took."""
    return re.sub(", after .*", "", output.rstrip("\n").rpartition("\n")[2])


def path_without_kit(folder: Path) -> str:
    """Returns a PATH that has every command except rt, by links in this folder."""
    places = []
    for number, place in enumerate(os.environ["PATH"].split(os.pathsep)):
        if shutil.which("rt", path=place):
            links = folder / f"without_rt_{number}"
            links.mkdir()
            for file in Path(place).iterdir():
                if file.name != "rt":
                    (links / file.name).symlink_to(file)
            place = str(links)
        places.append(place)
    return os.pathsep.join(places)
