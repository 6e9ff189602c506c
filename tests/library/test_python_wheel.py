"""The wheel of the package for Python: its tag, its files, and the package as it is installed."""
from __future__ import annotations

import base64
import hashlib
import os
import platform
import re
import shutil
import struct
import sys
import zipfile
from pathlib import Path
from subprocess import CompletedProcess
from typing import Any, Dict, List, Sequence

import pytest

from tests.shared.processes import TIMEOUT, run

from .compiling import need_tools
from .python_package import PACKAGE, pythons

pytestmark = pytest.mark.xdist_group("wheel")

MAKE_WHEEL = PACKAGE / "make_wheel"
RELEASE = "vintsaky-1.0.0"
INFO = f"{RELEASE}.dist-info/"
# the oldest glibc 2 for which installers know a tag
OLDEST = {"x86_64": 5, "aarch64": 17}.get(platform.machine(), 17)


def make_wheel(*words: object, script: Path = MAKE_WHEEL, **options: Any) -> CompletedProcess[Any]:
    """Returns what comes of making a wheel."""
    return run([sys.executable, "-B", script, *words], **options)


def wheel_from_copy(folder: Path, library: Path, umask: int, time: float) -> Path:
    """Returns a wheel of a copy of the package whose files have other rights and dates."""
    copy, made = folder / "package", folder / "made"
    shutil.copytree(PACKAGE, copy)
    made.mkdir()
    for path in copy.rglob("*"):
        path.chmod(0o777 & ~umask)
        os.utime(path, (time, time))
    done = make_wheel(library, made, script=copy / "make_wheel", cwd=made)
    assert (done.returncode, done.stderr) == (0, "")
    [wheel] = made.iterdir()
    assert done.stdout == f"{wheel.name}\n"
    return wheel


@pytest.fixture(scope="module")
def wheel(shared_library: Path, tmp_path_factory: pytest.TempPathFactory) -> Path:
    """Returns the wheel."""
    return wheel_from_copy(tmp_path_factory.mktemp("wheel"), shared_library, 0o022, 10**9)


@pytest.fixture(scope="module")
def files(wheel: Path) -> Dict[str, bytes]:
    """Returns the files of the wheel."""
    with zipfile.ZipFile(wheel) as archive:
        return {name: archive.read(name) for name in archive.namelist()}


def test_same_wheel_is_made_again(wheel: Path, shared_library: Path, tmp_path: Path) -> None:
    again = wheel_from_copy(tmp_path, shared_library, 0o077, 1.5 * 10**9)
    assert (again.name, again.read_bytes()) == (wheel.name, wheel.read_bytes())


# ---- the tag


def readelf(option: str, library: Path) -> str:
    """Returns what readelf prints of a library."""
    need_tools("readelf")
    output: str = run(["readelf", option, "--wide", library]).stdout
    return output


def test_wheel_is_for_this_processor_and_the_glibc_that_the_library_needs(
    wheel: Path, shared_library: Path
) -> None:
    versions = re.findall(r"Name: GLIBC_(\S+)", readelf("--version-info", shared_library))
    assert all(re.fullmatch("2[.][0-9.]+", version) for version in versions)
    newest = max([OLDEST, *(int(version.split(".")[1]) for version in versions)])
    assert wheel.name == f"{RELEASE}-py3-none-manylinux_2_{newest}_{platform.machine()}.whl"


def test_library_needs_only_libraries_that_each_linux_has(shared_library: Path) -> None:
    needed = re.findall(r"\(NEEDED\).*\[(.*)\]", readelf("--dynamic", shared_library))
    allowed = r"lib(c|gcc_s|m|dl|pthread)\.so\.\d|ld-linux-.*\.so\.\d"
    assert [name for name in needed if not re.fullmatch(allowed, name)] == []


def library_needing(versions: Sequence[str]) -> bytes:
    """Returns what make_wheel reads of a shared library for x86_64 that needs these versions.

    Each is a version of a library of its own.
    """
    texts, files = b"\0vintsaky_interface_1\0", b""
    for number, version in enumerate(versions, 1):
        next_one = 32 if number < len(versions) else 0
        files += struct.pack("<HHIII", 1, 1, 0, 16, next_one)
        files += struct.pack("<IHHII", 0, 0, 2, len(texts), 0)
        texts += version.encode() + b"\0"
    sections = [(0, 0, 0, 0), (3, 64, len(texts), 0)]
    if versions:
        sections.append((0x6FFFFFFE, 64 + len(texts), len(files), 1))
    heads = b"".join(
        struct.pack("<IIQQQQIIQQ", 0, kind, 0, 0, place, size, link, 0, 0, 0)
        for kind, place, size, link in sections
    )
    head = b"\x7fELF\x02\x01" + bytes(12) + struct.pack("<H", 62) + bytes(20)
    head += struct.pack("<Q", 64 + len(texts) + len(files)) + bytes(10)
    head += struct.pack("<HH", 64, len(sections)) + bytes(2)
    return head + texts + files + heads


@pytest.mark.parametrize(
    "versions, newest",
    [
        ([], 5),
        (["GLIBC_2.2.5"], 5),
        (["GLIBC_2.2.5", "GLIBC_2.14", "GLIBC_2.9"], 14),
        (["GCC_4.2.0", "GLIBC_2.100.1", "GLIBC_2.33"], 100),
    ],
    ids=str,
)
def test_tag_is_that_of_the_newest_version(
    versions: List[str], newest: int, tmp_path: Path
) -> None:
    (tmp_path / "library").write_bytes(library_needing(versions))
    done = make_wheel("library", ".", cwd=tmp_path)
    name = f"{RELEASE}-py3-none-manylinux_2_{newest}_x86_64.whl\n"
    assert (done.returncode, done.stdout, done.stderr) == (0, name, "")


@pytest.mark.parametrize("version", ["GLIBC_PRIVATE", "GLIBC_3.1"])
def test_version_that_is_not_of_glibc_2_is_refused(version: str, tmp_path: Path) -> None:
    (tmp_path / "library").write_bytes(library_needing(["GLIBC_2.14", version]))
    done = make_wheel("library", ".", cwd=tmp_path)
    error = f"make_wheel: the library needs {version}, which is no version of glibc 2\n"
    assert (done.returncode, done.stdout, done.stderr) == (1, "", error)


# ---- what is in it


def hash_of(data: bytes) -> str:
    """Returns a hash, as RECORD has it."""
    digest = base64.urlsafe_b64encode(hashlib.sha256(data).digest())
    return "sha256=" + digest.rstrip(b"=").decode()


def test_record_has_each_file(files: Dict[str, bytes]) -> None:
    record = f"{INFO}RECORD"
    lines = [f"{it},{hash_of(data)},{len(data)}" for it, data in files.items() if it != record]
    assert sorted(files[record].decode().splitlines()) == sorted([*lines, f"{record},,"])


def test_package_and_library_are_in_the_wheel(
    files: Dict[str, bytes], shared_library: Path
) -> None:
    sources = [path for path in (PACKAGE / "vintsaky").iterdir() if path.is_file()]
    wanted = {f"vintsaky/{path.name}": path.read_bytes() for path in sources}
    wanted["vintsaky/libvintsaky.so.1"] = shared_library.read_bytes()
    assert {it: data for it, data in files.items() if it.startswith("vintsaky/")} == wanted


def test_metadata_names_no_licence(files: Dict[str, bytes]) -> None:
    assert "licen" not in files[f"{INFO}METADATA"].decode().lower()


# ---- mistakes


@pytest.mark.parametrize("words", [[], ["LIBRARY"]], ids=" ".join)
def test_missing_argument_is_a_usage_error(words: List[str]) -> None:
    done = make_wheel(*words)
    assert (done.returncode, done.stdout) == (2, "")
    assert done.stderr == "usage: make_wheel LIBRARY DIRECTORY\n"


@pytest.mark.parametrize(
    "library, folder",
    [
        pytest.param("nothing", ".", id="no library"),
        pytest.param(MAKE_WHEEL, ".", id="a script"),
        pytest.param(os.path.realpath(sys.executable), ".", id="a program of this processor"),
        pytest.param("LIBRARY", "nothing", id="no folder"),
    ],
)
def test_mistake_is_one_line(
    library: object, folder: str, shared_library: Path, tmp_path: Path
) -> None:
    done = make_wheel(shared_library if library == "LIBRARY" else library, folder, cwd=tmp_path)
    assert (done.returncode, done.stdout, done.stderr.count("\n")) == (1, "", 1)
    assert done.stderr.startswith("make_wheel: ")


# ---- as it is installed


@pytest.fixture(scope="module")
def environment_python(tmp_path_factory: pytest.TempPathFactory) -> Path:
    """Returns the Python of a new virtual environment, or skips the test."""
    folder = tmp_path_factory.mktemp("installed") / "venv"
    for python in pythons():
        if run([python, "-m", "venv", folder], timeout=10 * TIMEOUT).returncode == 0:
            return folder / "bin/python"
        shutil.rmtree(folder, ignore_errors=True)
    pytest.skip("no Python here can make a virtual environment")


def pip(python: Path, *words: object) -> CompletedProcess[Any]:
    """Returns what comes of a command of pip, which reaches no network."""
    folder = python.parent.parent
    return run([python, "-m", "pip", *words], cwd=folder, timeout=10 * TIMEOUT)


@pytest.fixture(scope="module")
def installed(environment_python: Path, wheel: Path) -> Path:
    """Returns the Python of a virtual environment in which the wheel is installed."""
    options = ["--no-index", "--disable-pip-version-check", "--no-compile", "-q"]
    done = pip(environment_python, "install", *options, wheel)
    assert (done.returncode, done.stdout, done.stderr) == (0, "", "")
    return environment_python


def test_nothing_is_missing_where_the_wheel_is_installed(installed: Path) -> None:
    assert pip(installed, "check").returncode == 0


def test_pip_takes_the_tag_of_the_wheel(environment_python: Path, wheel: Path) -> None:
    tag = wheel.stem[len(f"{RELEASE}-") :]
    assert tag in pip(environment_python, "debug", "--verbose").stdout.split()


def test_installed_package_has_its_own_library(installed: Path) -> None:
    environment = {name: value for name, value in os.environ.items() if name != "PYTHONPATH"}
    environment["VINTSAKY_LIBRARY"] = "/nothing"
    code = "import vintsaky; game = vintsaky.Game(2); game.play('b', 'A1'); print(game)"
    folder = installed.parent.parent
    done = run([installed, "-c", f"{code}; print(vintsaky.__file__)"], cwd=folder, env=environment)
    [package] = folder.glob("lib/python*/site-packages/vintsaky")
    board = f". . 2\nX . 1\nA B\ncaptures B 0 W 0\n{package}/__init__.py\n"
    assert (done.returncode, done.stdout, done.stderr) == (0, board, "")
