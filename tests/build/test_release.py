"""The files of a release: their names, their sums, and what PROVENANCE says."""
from __future__ import annotations

import re
from pathlib import Path
from typing import List

import pytest

from tests.shared.processes import run

from .conftest import Trees
from .releases import GATE, RELEASE_MARKS, Releases, sum_of, sums_below

pytestmark = RELEASE_MARKS

WHICH = ["one", "final"]
each_release = pytest.mark.parametrize("which", WHICH)


@each_release
def test_files_have_the_name_of_the_release(which: str, releases: Releases) -> None:
    # the version and the commit, or the version alone where the release is final
    release = getattr(releases, which)
    assert sorted((release.copy / "dist").iterdir()) == release.files()


def test_sums_are_those_of_the_files(releases: Releases) -> None:
    dist = releases.one.copy / "dist"
    done = run(["sha256sum", "--check", "--strict", "SHA256SUMS"], cwd=dist)
    assert done.returncode == 0, done.stdout + done.stderr


def test_release_is_the_same_wherever_it_is_made(releases: Releases) -> None:
    # in a folder with another name, with another umask, time zone, language and home
    one, other = (sums_below(release.copy / "dist") for release in (releases.one, releases.other))
    assert one == other


def test_debian_has_the_release_after_its_version_and_before_the_next(releases: Releases) -> None:
    name, version = releases.one.name, releases.version
    following = re.sub(r"\d+$", lambda number: str(int(number[0]) + 1), version)
    for words in ([name, "gt", version], [name, "lt", f"{version}.1"], [name, "lt", following]):
        assert run(["dpkg", "--compare-versions", *words]).returncode == 0, words


# ---- PROVENANCE


def provenance(tree: Path) -> List[str]:
    """Returns the lines of PROVENANCE."""
    return (tree / "PROVENANCE").read_text().splitlines()


@each_release
@pytest.mark.parametrize(
    "kind, title",
    [("archives", "for Linux on x86-64 processors"), ("source_trees", "the sources for cargo")],
)
def test_provenance_says_what_is_released(
    kind: str, title: str, which: str, releases: Releases, request: pytest.FixtureRequest
) -> None:
    lines = provenance(getattr(request.getfixturevalue(kind), which))
    version, name = releases.version, getattr(releases, which).name
    kit = run(["rt", "version"]).stdout.strip()
    not_final = f"of this commit, and not final: ./release --final alone names one {version}"
    final = f"final: by ./release --final, {version} is this commit and no other"
    assert lines[0] == f"Vintsaky {name}, {title}"
    assert f"commit   {releases.commit}" in lines
    assert f"version  {version}, as the programs print it" in lines
    assert f"kit      {kit}" in lines
    assert [line for line in lines if line.startswith("release  ")] == [
        f"release  {final if which == 'final' else not_final}"
    ]


@pytest.mark.parametrize("kind", ["archives", "source_trees"])
@pytest.mark.parametrize(
    "which, gate, command",
    [
        ("one", "not run, or not known: --gate was not given for this commit", "./release"),
        ("final", GATE, f"./release --final --gate '{GATE}'"),
    ],
)
def test_provenance_has_what_the_gate_said_and_the_command(
    kind: str, which: str, gate: str, command: str, request: pytest.FixtureRequest
) -> None:
    lines = provenance(getattr(request.getfixturevalue(kind), which))
    said = [line for line in lines if line.startswith(("gate     ", "    ./release"))]
    assert said == [f"gate     {gate}", f"    {command}"]


def test_provenance_of_one_commit_differs_only_in_the_release(archives: Trees) -> None:
    one, final = (provenance(tree) for tree in archives)
    beginnings = [line[:9] for line in final if line not in one]
    assert beginnings == ["Vintsaky ", "release  ", "gate     ", "    ./rel"]


@pytest.mark.parametrize("program", ["twogtp", "gtp_engine", "gtp_check"])
def test_provenance_has_the_sums_of_a_program(
    program: str, releases: Releases, archive_tree: Path
) -> None:
    text = (archive_tree / "PROVENANCE").read_text()
    made = releases.one.copy / "bin"
    for file in (made / f"built/{program}.o", made / program, archive_tree / "bin" / program):
        assert sum_of(file) in text, file


@pytest.mark.parametrize("file", ["libvintsaky.a", "libvintsaky.so.1"])
def test_provenance_has_the_sums_of_the_library(
    file: str, releases: Releases, archive_tree: Path
) -> None:
    assert sum_of(releases.one.copy / "bin" / file) in (archive_tree / "PROVENANCE").read_text()


def test_provenance_of_sources_names_the_package_of_each_other_crate(source_trees: Trees) -> None:
    text = (source_trees.one / "PROVENANCE").read_text()
    crates = [folder.name for folder in (source_trees.one / "others").iterdir()]
    assert [crate for crate in crates if f"\n{crate} librust-" not in text] == []


def test_provenance_of_sources_says_what_is_proved(source_trees: Trees) -> None:
    text = (source_trees.one / "PROVENANCE").read_text()
    assert "\nProved are the sources of this commit with their contracts" in text
    assert "\nWhat cargo makes of it is not proved." in text
