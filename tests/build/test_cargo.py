"""What cargo makes of the workspace of this clone: programs, the library, tests and documentation.

Where the programs in bin/ are proved, cargo's have to do the same: in random trials, and where a
stream can't be used, an engine hangs or memory is refused.
"""
from __future__ import annotations

import os
import re
import shutil
import signal
from pathlib import Path
from subprocess import CompletedProcess
from typing import Any, Callable, Iterable, NamedTuple

import pytest

from tests.library import each_call
from tests.shared.processes import TIMEOUT, TOP, run

from .conftest import PROGRAMS
from .trials import Trial, checks, conversation, match, trials

pytestmark = [pytest.mark.cargo, pytest.mark.xdist_group("cargo")]

WORKSPACE = TOP / "cargo/workspace"
LONG = 30 * TIMEOUT
QUIET_CLIPPY = ["0.1.95", "0.1.96"]  # the versions that have to find nothing
FEWEST_TESTS = 150
# What makes cargo put its files elsewhere, where they aren't looked for.
PLACES = ["CARGO_TARGET_DIR", "CARGO_BUILD_TARGET_DIR", "CARGO_BUILD_TARGET"]


def run_offline(command: Iterable[object]) -> CompletedProcess[str]:
    """Returns what comes of a command in the workspace, where cargo reaches no network."""
    own = {name: it for name, it in os.environ.items() if name not in PLACES}
    own.update({"CARGO_NET_OFFLINE": "true", "CARGO_TERM_COLOR": "never"})
    return run(list(command), cwd=WORKSPACE, env=own, timeout=LONG)


def cargo(name: str, *words: str) -> CompletedProcess[str]:
    """Returns what comes of a command of cargo in the workspace."""
    return run_offline(["cargo", name, "--target-dir", WORKSPACE / "target", *words])


@pytest.fixture(scope="module")
def workspace() -> Path:
    """Returns the workspace, as cargo/strip writes it."""
    WORKSPACE.mkdir(exist_ok=True)
    done = run_offline([TOP / "cargo/strip"])
    assert done.returncode == 0, done.stdout + done.stderr
    return WORKSPACE


@pytest.fixture(scope="module")
def built(workspace: Path) -> Path:
    """Returns the folder of what cargo builds, without a warning."""
    packages = [word for name in [*PROGRAMS, "vintsaky_c"] for word in ("-p", name)]
    done = cargo("build", "--release", "--quiet", *packages)
    assert (done.returncode, done.stdout + done.stderr) == (0, "")
    return workspace / "target/release"


@pytest.mark.parametrize("file", [*PROGRAMS, "libvintsaky.a", "libvintsaky.so"])
def test_file_is_built_without_a_warning(file: str, built: Path) -> None:
    assert (built / file).is_file()


def test_tests_of_crates_pass(workspace: Path) -> None:
    # which look for overflows
    done = cargo("test", "--workspace", "--lib", "--quiet")
    assert done.returncode == 0, done.stdout + done.stderr
    line = r"^test result: ok\. (\d+) passed; 0 failed; 0 ignored"
    passed = re.findall(line, done.stdout, re.MULTILINE)
    assert sum(map(int, passed)) >= FEWEST_TESTS


def test_tests_of_the_allocator_pass(workspace: Path) -> None:
    # another test runs the one that is ignored: the process that the allocator has to end
    done = cargo("test", "-p", "kit_std", "--test", "memory", "--quiet")
    assert done.returncode == 0, done.stdout + done.stderr
    assert "test result: ok. 2 passed; 0 failed; 1 ignored" in done.stdout


def test_clippy_finds_nothing(workspace: Path) -> None:
    version = cargo_clippy_version()
    done = cargo("clippy", "--workspace", "--all-targets", "--quiet")
    if version not in QUIET_CLIPPY:
        pytest.skip(f"clippy {version} is none of {', '.join(QUIET_CLIPPY)}")
    assert (done.returncode, done.stdout + done.stderr) == (0, "")


def cargo_clippy_version() -> str:
    """Returns the version of clippy, or skips the test where there is none."""
    done = run_offline(["cargo", "clippy", "--version"])
    if done.returncode:
        pytest.skip("there is no clippy (on Debian rust-web-clippy)")
    version: str = done.stdout.split()[1]
    return version


def test_documentation_has_the_contracts(workspace: Path) -> None:
    done = cargo("doc", "--no-deps", "--quiet", "-p", "go_base")
    assert (done.returncode, done.stdout + done.stderr) == (0, "")
    page = (workspace / "target/doc/go_base/struct.Size.html").read_text()
    assert re.search(r"Contract\s*ensures", re.sub("<[^>]*>", "", page))


# ---- the library


@pytest.mark.cc
@pytest.mark.parametrize("way", each_call.WAYS, ids=lambda way: way.name)
@pytest.mark.parametrize(
    "file, name", [("libvintsaky.a", "libvintsaky.a"), ("libvintsaky.so", "libvintsaky.so.1")]
)
def test_each_call(
    file: str, name: str, way: each_call.Way, built: Path, proved_programs: Path, tmp_path: Path
) -> None:
    # where cargo has built the library in bin/, the tests of the library show this
    if reason := each_call.missing(way, tmp_path):
        pytest.skip(reason)
    (tmp_path / "library").mkdir()
    library = shutil.copy(built / file, tmp_path / "library" / name)
    each_call.check_each_call(way, library, tmp_path, "-DAT_MOST")


# ---- compared with the proved programs


class Result(NamedTuple):
    """What comes of a command."""

    status: int
    output: bytes
    errors: bytes


def result_of(command: Iterable[object], text: bytes = b"", **options: Any) -> Result:
    """Returns what comes of a command that reads this text."""
    done = run(list(command), text, **options)
    return Result(done.returncode, done.stdout or b"", done.stderr)


def is_text_of_clap(result: Result) -> bool:
    """Tells whether clap has written this, whose words differ between its versions."""
    is_help = result.status == 0 and b"\nUsage: " in b"\n" + result.output
    is_error = (result.status, result.output) == (2, b"") and result.errors.startswith(b"error: ")
    return is_help or is_error


def check_alike(rows: Iterable[Trial], proved: Path, built: Path) -> None:
    """Fails unless the same comes of each trial with both builds."""
    for trial in rows:
        command = [f"./{trial.program}", *trial.words]
        result, other = (
            result_of(command, trial.text, cwd=folder, timeout=10 * TIMEOUT)
            for folder in (built, proved)
        )
        if not (is_text_of_clap(result) and is_text_of_clap(other)):
            assert result == other, trial


@pytest.mark.parametrize("draw, count", [(conversation, 1000), (match, 300)])
def test_random_trials_are_as_by_the_proved_programs(
    draw: Callable[..., Trial],
    count: int,
    built: Path,
    proved_programs: Path,
    request: pytest.FixtureRequest,
) -> None:
    count = request.config.getoption("--count") or count
    rows = trials(draw, request.config.getoption("--seed"), count)
    check_alike(rows, proved_programs, built)


def test_random_checks_are_as_by_the_proved_programs(
    built: Path, proved_programs: Path, request: pytest.FixtureRequest
) -> None:
    rows = checks(request.config.getoption("--seed"), request.config.getoption("--count") or 6)
    check_alike(rows, proved_programs, built)


def write_to_a_full_disk(programs: Path, folder: Path) -> Result:
    """Returns how the engine ends whose output is a full disk."""
    with open("/dev/full", "wb") as full:
        return result_of([programs / "gtp_engine"], b"name\n", stdout=full)


def read_a_folder(programs: Path, folder: Path) -> Result:
    """Returns how the engine ends whose input can't be read."""
    reader = os.open("/", os.O_RDONLY)
    try:
        return result_of([programs / "gtp_engine"], stdin=reader)
    finally:
        os.close(reader)


def write_to_nobody(programs: Path, folder: Path) -> Result:
    """Returns how the engine ends whose output nobody reads. The signal would end a program."""
    reader, writer = os.pipe()
    os.close(reader)
    with open(writer, "wb") as output:
        return result_of(
            [programs / "gtp_engine"],
            b"name\n",
            stdout=output,
            preexec_fn=lambda: signal.signal(signal.SIGPIPE, signal.SIG_DFL),
        )


def play_a_script(programs: Path, folder: Path, script: str, **options: Any) -> Result:
    """Returns what comes of a match in which Black is this script."""
    engine = folder / "engine"
    engine.write_text(f"#!/bin/sh\n{script}")
    engine.chmod(0o755)
    players = ["--black", engine, "--white", programs / "gtp_engine"]
    return result_of([programs / "twogtp", *players, "--restarts", "0", "--why"], **options)


def play_an_engine_that_hangs(programs: Path, folder: Path) -> Result:
    """Returns what comes of a match that has to kill its engine."""
    return play_a_script(programs, folder, "echo wrong\nexec sleep 1000\n")


def play_with_an_open_file(programs: Path, folder: Path) -> Result:
    """Returns what comes of a match whose engine says whether it has a file of its parent's.

    It reads all that it is sent before a reply, so that the next read fails, and no write.
    """
    number = os.dup2(os.open("/dev/null", os.O_RDONLY), 39)
    has_file = "[ ! -e /proc/self/fd/39 ] || echo 'it has the file' >&2"
    try:
        script = f"{has_file}\nfor it in 1 2 3; do read -r line; done\n"
        return play_a_script(programs, folder, script, pass_fds=[number])
    finally:
        os.close(number)


@pytest.mark.parametrize(
    "end",
    [
        write_to_a_full_disk,
        read_a_folder,
        write_to_nobody,
        play_an_engine_that_hangs,
        play_with_an_open_file,
    ],
)
def test_program_ends_as_the_proved_one(
    end: Callable[[Path, Path], Result], built: Path, proved_programs: Path, tmp_path: Path
) -> None:
    assert end(built, tmp_path) == end(proved_programs, tmp_path)


@pytest.mark.cc
@pytest.mark.parametrize("request_number", ["1", "5", "8"])
def test_refused_memory_is_as_by_the_proved_program(
    request_number: str, built: Path, proved_programs: Path, refusing_library: Path
) -> None:
    # the first is one that returns, and the others end the program
    own = {**os.environ, "LD_PRELOAD": str(refusing_library), "REFUSED": request_number}
    results = [
        result_of([folder / "gtp_engine"], b"name\n", env=own)
        for folder in (built, proved_programs)
    ]
    assert results[0] == results[1]
