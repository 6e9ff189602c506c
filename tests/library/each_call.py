"""Makes each call of the library where another program looks at its memory or its threads."""
from __future__ import annotations

import os
import shutil
from pathlib import Path
from typing import List, NamedTuple, Optional, Sequence

from tests.shared.processes import TIMEOUT, TOP, run

SOURCE = TOP / "tests/shared/each_call.c"
STACK = TOP / "tests/library/stack.c"
OPTIONS = ["-std=c99", "-O1", "-g", "-Wall", "-Wextra", "-pedantic", f"-I{TOP}/library"]
MEMORY, THREADS = "address,undefined", "thread"  # the sanitizers


def eight_threads(rounds: int, stack: int) -> List[str]:
    """Returns flags for eight threads that make the calls so often, each on so many kB of stack."""
    return ["-DTHREADS=8", f"-DROUNDS={rounds}", f"-DSTACK_KB={stack}"]


class Way(NamedTuple):
    """A way to make the calls: flags of the compiler, and the command that runs the program."""

    name: str
    flags: Sequence[str] = ()
    command: Sequence[str] = ()
    sanitizer: str = ""


WAYS = [
    Way("under valgrind", command=["valgrind", "-q", "--error-exitcode=9"]),
    Way(
        "under sanitizers of addresses and of undefined behaviour",
        ["-fno-sanitize-recover=all"],
        sanitizer=MEMORY,
    ),
    Way("in eight threads with 384 kB of stack", eight_threads(2000, 384)),
    Way("in eight threads under a sanitizer", eight_threads(100, 4096), sanitizer=THREADS),
    # a sanitizer doesn't see what a library does that was compiled without it
    Way(
        "in eight threads under valgrind",
        eight_threads(3, 4096),
        ["valgrind", "-q", "--tool=helgrind", "--error-exitcode=9"],
    ),
]


def compile_with(library: Path, source: Path, program: Path, *flags: str) -> None:
    """Compiles a program with this file of the library, and fails where the compiler complains."""
    command = ["cc", *OPTIONS, *flags, "-o", program, source, library, "-lpthread"]
    environment = {**os.environ, "TMPDIR": str(program.parent)}
    done = run(command, timeout=10 * TIMEOUT, env=environment)
    assert (done.returncode, done.stdout + done.stderr) == (0, "")


def runs(sanitizer: str, folder: Path) -> bool:
    """Tells whether a program runs under this sanitizer. Under some kernels none does."""
    source, program = folder / "nothing.c", folder / "nothing"
    source.write_text("int main(void) { return 0; }\n")
    done = run(["cc", f"-fsanitize={sanitizer}", "-o", program, source])
    return done.returncode == 0 and run([program]).returncode == 0


def missing(way: Way, folder: Path) -> Optional[str]:
    """Returns what is missing here for this way, or None."""
    if way.command and not shutil.which(way.command[0]):
        return f"there is no {way.command[0]}"
    if way.sanitizer and not runs(way.sanitizer, folder):
        return "the sanitizer does not run here"
    return None


def check_each_call(way: Way, library: Path, folder: Path, *flags: str) -> None:
    """Fails unless all calls are right in this way, by this file of the library."""
    shutil.copy(library, folder)
    program = folder / "calls"
    sanitizer = [f"-fsanitize={way.sanitizer}"] if way.sanitizer else []
    compile_with(folder / library.name, SOURCE, program, *way.flags, *sanitizer, *flags)
    environment = {**os.environ, "LD_LIBRARY_PATH": str(folder)}
    done = run([*way.command, program], timeout=10 * TIMEOUT, env=environment)
    assert (done.returncode, done.stdout + done.stderr) == (0, "")
