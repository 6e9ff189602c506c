"""Makes releases, in copies of the repository that have one commit, and unpacks them."""
from __future__ import annotations

import hashlib
import os
import re
import shutil
import sys
import tempfile
from concurrent.futures import ThreadPoolExecutor
from pathlib import Path
from subprocess import CompletedProcess
from typing import Dict, List, NamedTuple, Optional

import pytest

from tests.shared import pages
from tests.shared.processes import TIMEOUT, TOP, run

PROGRAMS = ["twogtp", "gtp_engine", "gtp_check"]
LIBRARY = ["libvintsaky.a", "libvintsaky.so.1"]
PACKAGES = ["vintsaky", "libvintsaky1", "libvintsaky-dev", "python3-vintsaky"]
GATE = "12345 passed, 0 failed, at https://gate.example/7"
DATE = "2026-11-25T00:00:00Z"
LONG = 10 * TIMEOUT
GAME = r"(?:\d+\n)?game 1: \S+ moves \d+ restarts 0 0\n"  # the port of a server comes first
# A game in Python: whether White may play on A1 and on B1, once Black has played on A1.
CALLS = """
import vintsaky
game = vintsaky.Game(9)
game.play("b", "A1")
print(vintsaky.version(), game.legal("w", "A1"), game.legal("w", "B1"))
"""
# A release needs these, and proved programs. All tests of it run in one process, which makes it.
RELEASE_MARKS = [pytest.mark.kit, pytest.mark.cargo, pytest.mark.xdist_group("release")]


class Release(NamedTuple):
    """A release of a copy of the repository, by the name that its files have."""

    copy: Path
    name: str

    @property
    def archive(self) -> Path:
        """Returns the archive of the programs and the library."""
        return self.copy / f"dist/vintsaky-{self.name}-linux-x86_64.tar.gz"

    @property
    def sources(self) -> Path:
        """Returns the archive of the sources for cargo."""
        return self.copy / f"dist/vintsaky-{self.name}-src.tar.gz"

    def package(self, package: str) -> Path:
        """Returns one of the Debian packages."""
        architecture = "all" if package == "python3-vintsaky" else "amd64"
        return self.copy / f"dist/{package}_{self.name}_{architecture}.deb"

    def files(self) -> List[Path]:
        """Returns all files that a release of this name has to have."""
        packages = [self.package(package) for package in PACKAGES]
        return sorted([self.archive, self.sources, *packages, self.copy / "dist/SHA256SUMS"])


class Releases(NamedTuple):
    """Two releases of one commit, made in different surroundings, and a final one of it."""

    one: Release
    other: Release
    final: Release
    commit: str
    version: str

    def files_with_own_paths(self, folder: Path) -> List[Path]:
        """Returns the files below a folder that have the path of one of the copies."""
        copies = [self.one.copy, self.other.copy, self.final.copy, TOP]
        paths = [str(copy).encode() for copy in copies]
        files = {file: file.read_bytes() for file in folder.rglob("*") if file.is_file()}
        return [file for file, data in files.items() if any(path in data for path in paths)]


def missing_for_a_release() -> Optional[str]:
    """Returns what is missing for a release, or None."""
    for name, package in (("git", "git"), ("dpkg-deb", "dpkg")):
        if not shutil.which(name):
            return f"there is no {name} (apt-get install {package})"
    for words in (
        ["build", "--proved", "--is-built"],
        ["build", "--proved", "--is-built", "library"],
        ["packaging/link", "--library"],
        ["packaging/source", "--look"],
    ):
        done = run([TOP / words[0], *words[1:]], cwd=TOP)
        if done.returncode:
            reason: str = done.stderr.strip()
            return reason
    with tempfile.TemporaryDirectory() as folder:
        for program in PROGRAMS:
            files = [object_file(TOP, program), TOP / "bin" / program, Path(folder, program)]
            if run([TOP / "packaging/link", *files]).returncode == 3:
                return f"rt ci kept no object file of this {program}: ./build {program} keeps one"
    return None


def object_file(copy: Path, program: str) -> Path:
    """Returns where a build keeps the object file of a program."""
    return copy / f"bin/built/{program}.o"


def sum_of(file: Path) -> str:
    """Returns the sum of a file."""
    return hashlib.sha256(file.read_bytes()).hexdigest()


def sums_below(folder: Path) -> Dict[str, str]:
    """Returns the sums of all files in a folder and below it that Git doesn't leave out."""
    files = [
        file
        for file in folder.rglob("*")
        if file.is_file() and not {"target", "__pycache__"} & set(file.parts)
    ]
    return {str(file.relative_to(folder)): sum_of(file) for file in files}


def modes_below(folder: Path) -> Dict[str, int]:
    """Returns who may do what with the files below a folder."""
    files = [file for file in folder.rglob("*") if file.is_file()]
    return {str(file.relative_to(folder)): file.stat().st_mode & 0o777 for file in files}


# ---- making


def git(folder: Path, *words: str) -> str:
    """Returns what Git writes in a folder."""
    dates = {"GIT_AUTHOR_DATE": DATE, "GIT_COMMITTER_DATE": DATE}
    done = run(["git", *words], cwd=folder, env={**os.environ, **dates})
    assert done.returncode == 0, done.stderr
    output: str = done.stdout
    return output


def commit(folder: Path, message: str) -> None:
    """Commits all files of a folder."""
    who = ["-c", "user.name=tests", "-c", "user.email=tests@release.example"]
    git(folder, "add", "-A")
    git(folder, *who, "commit", "-q", "-m", message)


def copied(folder: Path) -> Path:
    """Returns a new copy of the repository with one commit, the programs and the library.

    It has a ./build that only accepts how ./release calls it, since nothing is to be proved.
    """
    folder.mkdir(parents=True)
    for name in filter(None, git(TOP, "ls-files", "-z").split("\0")):
        if (TOP / name).exists():
            (folder / name).parent.mkdir(parents=True, exist_ok=True)
            shutil.copy(TOP / name, folder / name, follow_symlinks=False)
    words = " ".join(["--needed --proved", *PROGRAMS, "library"])
    (folder / "build").write_text(f'#!/bin/bash\n[ "$*" = "{words}" ]\n')
    git(folder, "init", "-q")
    commit(folder, "What is released")
    (folder / "bin/built").mkdir(parents=True)
    for file in [*PROGRAMS, *LIBRARY]:
        shutil.copy(TOP / "bin" / file, folder / "bin")
    for program in PROGRAMS:
        shutil.copy(object_file(TOP, program), folder / "bin/built")
    return folder


def release(
    copy: Path, *words: str, umask: int = 0o022, **environment: str
) -> CompletedProcess[str]:
    """Returns what comes of ./release in a copy."""
    command = ["bash", "-c", f'umask {umask:03o}; exec ./release "$@"', "release", *words]
    return run(command, cwd=copy, env={**os.environ, **environment}, timeout=LONG)


def make_releases(folder: Path) -> Releases:
    """Returns three releases, which are made at the same time."""
    one, other, final = (copied(folder / name) for name in ("one", "deeper/another", "final"))
    version = run([one / "bin/twogtp", "--version"]).stdout.split()[1]
    git(final, "tag", f"v{version}")
    elsewhere = {
        "TZ": "Asia/Tokyo",
        "LC_ALL": "C.UTF-8",
        "LANGUAGE": "de",
        "HOME": str(other),
        "RUSTUP_HOME": os.environ.get("RUSTUP_HOME", str(Path.home() / ".rustup")),
    }
    with ThreadPoolExecutor(3) as pool:
        runs = [
            pool.submit(release, one),
            pool.submit(release, other, umask=0o077, **elsewhere),
            pool.submit(release, final, "--gate", GATE, "--final"),
        ]
    for done in (future.result() for future in runs):
        assert (done.returncode, done.stderr) == (0, "")
    commit_id = git(one, "rev-parse", "HEAD").strip()
    name = f"{version}+git.{commit_id[:12]}"
    return Releases(
        Release(one, name), Release(other, name), Release(final, version), commit_id, version
    )


# ---- unpacking


def unpacked_archive(archive: Path, folder: Path) -> Path:
    """Returns the one folder that is in an archive, which is unpacked into a new folder."""
    folder.mkdir()
    done = run(["tar", "-xf", archive, "-C", folder])
    assert (done.returncode, done.stderr) == (0, "")
    (tree,) = folder.iterdir()
    return tree


def unpacked_packages(packages: List[Path], folder: Path) -> Path:
    """Returns the folder into which Debian packages are unpacked."""
    for package in packages:
        done = run(["dpkg-deb", "-x", package, folder])
        assert (done.returncode, done.stderr) == (0, "")
    return folder


def control_field(package: Path, field: str) -> str:
    """Returns a field of a Debian package."""
    output: str = run(["dpkg-deb", "-f", package, field]).stdout
    return output.strip()


def examples_of(page: Path) -> Dict[str, str]:
    """Returns what a page shows below each of its commands."""
    blocks = re.findall(r"^```\n\$ (.*)\n((?:.*\n)*?)```$", page.read_text(), re.MULTILINE)
    return dict(blocks)


# ---- the library


def check_calls_in_python(folder: Path, **environment: str) -> None:
    """Fails unless the package for Python that is in a folder calls the library."""
    own = {"PYTHONPATH": str(folder), "PYTHONDONTWRITEBYTECODE": "1", **environment}
    done = run([sys.executable, "-c", CALLS], env={**os.environ, **own})
    assert (done.returncode, done.stdout, done.stderr) == (0, "(1, 0, 0) False True\n", "")


def engine_in_python(docs: Path) -> str:
    """Returns the engine in Python that the pages on the library show."""
    shown = pages.library_blocks(docs, "python")
    (engine,) = [block for block in shown if "vintsaky.Engine" in block]
    return engine


def check_game(done: CompletedProcess[str]) -> None:
    """Fails unless a command has played a game, without a warning."""
    assert done.returncode == 0, done.stdout + done.stderr
    assert re.fullmatch(GAME, done.stdout), done.stdout
    assert re.findall(r".*\b(?:warning|error):.*|Traceback", done.stderr) == []
