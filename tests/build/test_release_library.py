"""The library in the archive and in the packages of a release, called from C and from Python."""
from __future__ import annotations

import os
import re
import shutil
import zipfile
from pathlib import Path
from typing import Dict, List

import pytest

from tests.shared import pages
from tests.shared.processes import TIMEOUT, TOP, run

from .releases import (
    LIBRARY,
    PACKAGES,
    RELEASE_MARKS,
    Releases,
    check_calls_in_python,
    check_game,
    control_field,
    engine_in_python,
    sum_of,
    sums_below,
    unpacked_packages,
)

pytestmark = RELEASE_MARKS

LIBRARIES = "usr/lib/x86_64-linux-gnu"
MODULES = "usr/lib/python3/dist-packages"
DEPENDS = {
    "libvintsaky1": "",
    "libvintsaky-dev": "libvintsaky1 (= {0})",
    "python3-vintsaky": "libvintsaky1 (>= {0}), python3 (>= 3.9)",
}
# What the page of the library shows, in this order.
BLOCKS = ["an engine in C", "an engine in Python", "a search in C", "a server"]


def check_calls_in_c(flags: List[object], library: Path, folder: Path) -> None:
    """Fails unless a program is compiled with these flags, and calls the library that is here."""
    calls = folder / "each_call"
    source = TOP / "tests/shared/each_call.c"
    done = run(["cc", "-std=c99", "-o", calls, source, *flags], timeout=10 * TIMEOUT)
    assert (done.returncode, done.stdout + done.stderr) == (0, "")
    done = run([calls], env={**os.environ, "LD_LIBRARY_PATH": str(library)})
    assert (done.returncode, done.stdout + done.stderr) == (0, "")


def pkg_config_flags(folder: Path) -> List[str]:
    """Returns what pkg-config finds in this folder, or skips the test."""
    if not shutil.which("pkg-config"):
        pytest.skip("there is no pkg-config (apt-get install pkg-config)")
    own = {f"PKG_CONFIG_ALLOW_SYSTEM_{name}": "1" for name in ("CFLAGS", "LIBS")}
    own["PKG_CONFIG_LIBDIR"] = str(folder)
    command = ["pkg-config", "--cflags", "--libs", "vintsaky"]
    done = run(command, env={**os.environ, **own})
    assert (done.returncode, done.stderr) == (0, "")
    flags: List[str] = done.stdout.split()
    return flags


def check_files(tree: Path, files: Dict[str, Path]) -> None:
    """Fails unless a tree has these files, which nobody may execute."""
    for name, file in files.items():
        assert sum_of(tree / name) == sum_of(file), name
        assert (tree / name).stat().st_mode & 0o777 == 0o644, name


# ---- in the archive


def test_archive_has_the_library(archive_tree: Path) -> None:
    files = {f"lib/{name}": TOP / "bin" / name for name in LIBRARY}
    check_files(archive_tree, {"include/vintsaky.h": TOP / "library/vintsaky.h", **files})
    assert os.readlink(archive_tree / "lib/libvintsaky.so") == "libvintsaky.so.1"


def test_notices_of_the_archive_say_that_there_is_no_licence(archive_tree: Path) -> None:
    text = (archive_tree / "notices/README").read_text()
    assert "neither that of the programs nor that of the library" in text


@pytest.mark.parametrize("examples", ["examples", "python/examples"])
def test_archive_has_the_examples_of_the_commit(
    examples: str, releases: Releases, archive_tree: Path
) -> None:
    own = sums_below(releases.one.copy / "library" / examples)
    assert sums_below(archive_tree / "share/vintsaky" / examples) == own != {}


@pytest.mark.cc
def test_pkg_config_finds_the_library_of_the_archive(archive_tree: Path, tmp_path: Path) -> None:
    flags = pkg_config_flags(archive_tree / "lib/pkgconfig")
    folders = [Path(flag[2:]).resolve() for flag in flags if re.match("-[IL]", flag)]
    assert [folder for folder in folders if archive_tree.resolve() not in folder.parents] == []
    check_calls_in_c(list(flags), archive_tree / "lib", tmp_path)


@pytest.mark.cc
def test_static_library_of_the_archive_is_called(archive_tree: Path, tmp_path: Path) -> None:
    flags: List[object] = ["-I", archive_tree / "include", archive_tree / "lib/libvintsaky.a"]
    check_calls_in_c(flags, tmp_path, tmp_path)


def test_wheel_of_the_archive_is_called(archive_tree: Path, tmp_path: Path) -> None:
    (wheel,) = (archive_tree / "share/vintsaky/python").glob("*.whl")
    with zipfile.ZipFile(wheel) as file:
        file.extractall(tmp_path)
    libraries = [sum_of(library) for library in tmp_path.rglob("libvintsaky.so.1")]
    assert libraries == [sum_of(TOP / "bin/libvintsaky.so.1")]
    check_calls_in_python(tmp_path)


# ---- in the packages

each_package = pytest.mark.parametrize("package", PACKAGES[1:])


@each_package
def test_fields_of_a_package(package: str, releases: Releases) -> None:
    file, version = releases.one.package(package), releases.one.name
    fields = {
        "Package": package,
        "Version": version,
        "Source": "vintsaky",
        "Architecture": "all" if package == "python3-vintsaky" else "amd64",
        "Depends": DEPENDS[package].format(version),
    }
    assert {name: control_field(file, name) for name in fields} == fields


@pytest.mark.parametrize("package", PACKAGES)
def test_lintian_finds_nothing(package: str, releases: Releases) -> None:
    if not shutil.which("lintian"):
        pytest.skip("there is no lintian (apt-get install lintian)")
    command = ["lintian", "--fail-on", "error,warning", releases.one.package(package)]
    done = run(command, timeout=10 * TIMEOUT)
    assert (done.returncode, done.stdout) == (0, "")


@each_package
def test_rights_of_a_package(package: str, library_packages: Path) -> None:
    text = (library_packages / f"usr/share/doc/{package}/copyright").read_text()
    assert "Vintsaky has no licence: choosing one is up to its owner" in text
    assert "Whose code the library holds" in text
    assert "libc6" not in text


@each_package
def test_changelog_of_a_package(package: str, library_packages: Path) -> None:
    done = run(["zcat", library_packages / f"usr/share/doc/{package}/changelog.gz"])
    assert done.stdout.startswith("vintsaky (")


@pytest.mark.parametrize(
    "file, text",
    [
        pytest.param("triggers", "activate-noawait ldconfig\n", id="to the loader"),
        pytest.param(
            "shlibs", "libvintsaky 1 libvintsaky1 (>= {0})\n", id="to those who make packages"
        ),
    ],
)
def test_shared_library_is_made_known(
    file: str, text: str, releases: Releases, tmp_path: Path
) -> None:
    run(["dpkg-deb", "-e", releases.one.package("libvintsaky1"), tmp_path])
    assert (tmp_path / file).read_text() == text.format(releases.version)


def test_packages_have_the_library(library_packages: Path) -> None:
    files = {f"{LIBRARIES}/{name}": TOP / "bin" / name for name in LIBRARY}
    check_files(library_packages, {"usr/include/vintsaky.h": TOP / "library/vintsaky.h", **files})
    assert os.readlink(library_packages / LIBRARIES / "libvintsaky.so") == "libvintsaky.so.1"


def test_no_file_of_the_packages_has_a_path_of_its_builder(
    releases: Releases, library_packages: Path
) -> None:
    assert releases.files_with_own_paths(library_packages) == []


def test_pkg_config_names_the_folders_of_debian(library_packages: Path) -> None:
    flags = pkg_config_flags(library_packages / LIBRARIES / "pkgconfig")
    assert flags == ["-I/usr/include", f"-L/{LIBRARIES}", "-lvintsaky"]


@pytest.mark.cc
def test_library_of_the_packages_is_called(library_packages: Path, tmp_path: Path) -> None:
    libraries = library_packages / LIBRARIES
    flags: List[object] = ["-I", library_packages / "usr/include", "-L", libraries, "-lvintsaky"]
    check_calls_in_c(flags, libraries, tmp_path)


def test_package_for_python_is_that_of_the_commit(
    releases: Releases, library_packages: Path
) -> None:
    modules = sums_below(releases.one.copy / "library/python/vintsaky")
    assert sums_below(library_packages / MODULES / "vintsaky") == modules
    libraries = str(library_packages / LIBRARIES)
    check_calls_in_python(library_packages / MODULES, LD_LIBRARY_PATH=libraries)


# ---- what the page of the library shows


def run_block(docs: Path, number: int, folder: Path, root: str, **paths: Path) -> None:
    """Fails unless a block of commands of the library's pages plays a game in this folder.

    The variables name these paths first, and the files of packages lie in `root`.
    """
    blocks = pages.library_blocks(docs, "")
    assert len(blocks) == len(BLOCKS)
    (folder / "my_engine.py").write_text(engine_in_python(docs))
    hidden = ("PYTHONPATH", "VINTSAKY_LIBRARY")
    own = {name: it for name, it in os.environ.items() if name not in hidden}
    own["PYTHONDONTWRITEBYTECODE"] = "1"
    for variable, path in paths.items():
        own[variable] = os.pathsep.join(filter(None, [str(path), own.get(variable)]))
    in_packages = r"(?<![\w/])/usr/(?=games/gtp_engine|share/doc/)"
    block = re.sub(in_packages, f"{root}/usr/", blocks[number])
    check_game(run(["bash", "-ec", block], cwd=folder, env=own, timeout=10 * TIMEOUT))


each_block = pytest.mark.parametrize("number", range(len(BLOCKS)), ids=BLOCKS)


@each_block
def test_archive_does_what_its_page_shows(number: int, archive_tree: Path, tmp_path: Path) -> None:
    folder = tmp_path / "archive"
    shutil.copytree(archive_tree, folder, symlinks=True)
    run_block(folder / "docs", number, folder, "")


@pytest.fixture(scope="module")
def all_packages(releases: Releases, tmp_path_factory: pytest.TempPathFactory) -> Path:
    """Returns the folder into which all packages are unpacked."""
    packages = [releases.one.package(package) for package in PACKAGES]
    return unpacked_packages(packages, tmp_path_factory.mktemp("all_packages"))


@each_block
def test_packages_do_what_their_page_shows(number: int, all_packages: Path, tmp_path: Path) -> None:
    run_block(
        all_packages / "usr/share/doc/vintsaky/docs",
        number,
        tmp_path,
        str(all_packages),
        PATH=all_packages / "usr/bin",
        CPATH=all_packages / "usr/include",
        LIBRARY_PATH=all_packages / LIBRARIES,
        LD_LIBRARY_PATH=all_packages / LIBRARIES,
        PYTHONPATH=all_packages / MODULES,
    )
