"""What all tests share: the options, the programs that are tested, and what a marked test needs."""
from __future__ import annotations

import argparse
import os
import shutil
import subprocess
import sys
from pathlib import Path
from typing import Callable, Optional

import pytest

from tests.shared.refused_memory import Refuser

TOP = Path(__file__).resolve().parents[1]


def positive(text: str) -> int:
    """Returns the number that a text spells, of which there has to be one at least."""
    number = int(text)
    if number < 1:
        raise argparse.ArgumentTypeError("at least 1")
    return number


def pytest_addoption(parser: pytest.Parser) -> None:
    group = parser.getgroup("vintsaky", "tests of the built programs")
    group.addoption(
        "--programs",
        metavar="FOLDER",
        default=str(TOP / "bin"),
        help="where the built programs are; else bin/",
    )
    group.addoption(
        "--count",
        metavar="N",
        type=positive,
        help="how many random matches are played, or random conversations of each kind",
    )
    group.addoption(
        "--seed",
        metavar="S",
        type=int,
        default=1,
        help="the seed of random matches and conversations; else 1",
    )


# ---- what is tested


@pytest.fixture(scope="session")
def programs(request: pytest.FixtureRequest) -> Path:
    """Returns the folder of the built programs."""
    return Path(request.config.getoption("--programs")).resolve()


def built(folder: Path, name: str) -> Path:
    """Returns the path of a program. A test that uses one that isn't there fails."""
    program = folder / name
    if not os.access(program, os.X_OK):
        pytest.fail(f"{program} is not there: ./build --cargo makes it", pytrace=False)
    return program


@pytest.fixture(scope="session")
def gtp_engine(programs: Path) -> Path:
    """Returns the path of the engine."""
    return built(programs, "gtp_engine")


@pytest.fixture(scope="session")
def twogtp(programs: Path) -> Path:
    """Returns the path of the program that plays matches."""
    return built(programs, "twogtp")


@pytest.fixture(scope="session")
def gtp_check(programs: Path) -> Path:
    """Returns the path of the program that checks engines."""
    return built(programs, "gtp_check")


def built_library(folder: Path, name: str) -> Path:
    """Returns the path of a file of the library, or skips the test that uses it."""
    file = folder / name
    if not file.is_file():
        pytest.skip(f"{file} is not there, which ./build library makes")
    return file


@pytest.fixture(scope="session")
def archive(programs: Path) -> Path:
    """Returns the path of the library that is linked into programs."""
    return built_library(programs, "libvintsaky.a")


@pytest.fixture(scope="session")
def shared_library(programs: Path) -> Path:
    """Returns the path of the library that programs load."""
    return built_library(programs, "libvintsaky.so.1")


@pytest.fixture(scope="session")
def refusing_library(tmp_path_factory: pytest.TempPathFactory) -> Path:
    """Returns the path of a library that is loaded into programs, and refuses them memory."""
    library = tmp_path_factory.mktemp("refusing") / "refusing.so"
    source = TOP / "tests/shared/refusing.c"
    subprocess.run(["cc", "-O1", "-shared", "-fPIC", "-o", library, source, "-ldl"], check=True)
    return library


@pytest.fixture
def refuser(refusing_library: Path, programs: Path, tmp_path: Path) -> Refuser:
    """Returns what refuses programs memory."""
    return Refuser(refusing_library, programs, tmp_path)


@pytest.fixture(scope="session")
def environment(programs: Path) -> dict[str, str]:
    """Returns the environment in which the built programs are found before others."""
    return {**os.environ, "PATH": os.pathsep.join([str(programs), os.environ["PATH"]])}


# ---- what a marked test needs


def lacks_command(name: str) -> Callable[[], Optional[str]]:
    """Returns a function that says that a command isn't there, or None where it is."""
    return lambda: None if shutil.which(name) else f"there is no {name}"


def lacks_cargo() -> Optional[str]:
    """Returns what is missing for a build by cargo, or None.

    In CI nothing is, as tests/install says. What else cargo/strip fails by, the tests show.
    """
    strip = [sys.executable, str(TOP / "cargo/strip"), "--look"]
    done = subprocess.run(strip, capture_output=True, text=True)
    is_missing = done.returncode == 1 and done.stderr.startswith("strip: ")
    return done.stderr.strip() if is_missing and os.environ.get("CI") != "true" else None


def lacks_root() -> Optional[str]:
    """Returns a reason where this user isn't root, or None."""
    return None if os.geteuid() == 0 else "this is not root"


MISSING: dict[str, Callable[[], Optional[str]]] = {
    "kit": lacks_command("rt"),
    "cc": lacks_command("cc"),
    "cargo": lacks_cargo,
    "gnugo": lacks_command("/usr/games/gnugo"),
    "chromium": lacks_command("chromium"),
    "firefox": lacks_command("firefox-esr"),
    "root": lacks_root,
}


def pytest_collection_modifyitems(items: list[pytest.Item]) -> None:
    """Marks each test as skipped that needs what isn't there, with the reason."""
    wanted = {mark.name for item in items for mark in item.iter_markers()}
    reasons = {name: missing() for name, missing in MISSING.items() if name in wanted}
    for item in items:
        for mark in item.iter_markers():
            if reason := reasons.get(mark.name):
                item.add_marker(pytest.mark.skip(reason=reason))
