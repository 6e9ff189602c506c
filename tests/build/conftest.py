"""What the tests of builds and releases share."""
from __future__ import annotations

from pathlib import Path
from typing import NamedTuple

import pytest

from tests.shared.processes import TOP, run

from .releases import (
    PACKAGES,
    PROGRAMS,
    Releases,
    make_releases,
    missing_for_a_release,
    unpacked_archive,
    unpacked_packages,
)


@pytest.fixture(scope="session")
def proved_programs() -> Path:
    """Returns the folder of the programs, or skips the test where they aren't proved."""
    done = run([TOP / "packaging/built", *PROGRAMS], cwd=TOP)
    if (done.returncode, done.stdout) != (0, len(PROGRAMS) * "proved\n"):
        pytest.skip("the programs in bin/ are not proved")
    return TOP / "bin"


@pytest.fixture(scope="session")
def releases(tmp_path_factory: pytest.TempPathFactory) -> Releases:
    """Returns releases, or skips the test where none can be made."""
    if missing := missing_for_a_release():
        pytest.skip(missing)
    return make_releases(tmp_path_factory.mktemp("releases").resolve())


class Trees(NamedTuple):
    """Where a release of a commit, and a final one, are unpacked."""

    one: Path
    final: Path


@pytest.fixture(scope="session")
def archives(releases: Releases, tmp_path_factory: pytest.TempPathFactory) -> Trees:
    """Returns the folders of the archives."""
    folder = tmp_path_factory.mktemp("archives")
    one = unpacked_archive(releases.one.archive, folder / "one")
    return Trees(one, unpacked_archive(releases.final.archive, folder / "final"))


@pytest.fixture(scope="session")
def archive_tree(archives: Trees) -> Path:
    """Returns the folder of the archive of programs."""
    return archives.one


@pytest.fixture(scope="session")
def package_tree(releases: Releases, tmp_path_factory: pytest.TempPathFactory) -> Path:
    """Returns the folder into which the package of the programs is unpacked."""
    packages = [releases.one.package("vintsaky")]
    return unpacked_packages(packages, tmp_path_factory.mktemp("package"))


@pytest.fixture(scope="session")
def library_packages(releases: Releases, tmp_path_factory: pytest.TempPathFactory) -> Path:
    """Returns the folder into which the packages of the library are unpacked."""
    packages = [releases.one.package(package) for package in PACKAGES[1:]]
    return unpacked_packages(packages, tmp_path_factory.mktemp("packages"))


@pytest.fixture(scope="session")
def source_trees(releases: Releases, tmp_path_factory: pytest.TempPathFactory) -> Trees:
    """Returns the folders of the archives of sources."""
    folder = tmp_path_factory.mktemp("sources").resolve()
    one = unpacked_archive(releases.one.sources, folder / "one")
    return Trees(one, unpacked_archive(releases.final.sources, folder / "final"))
