"""What is in the archive of a release and in the package of its programs, and whether it runs."""
from __future__ import annotations

import os
import re
import shlex
import shutil
import struct
from pathlib import Path
from subprocess import CompletedProcess
from typing import Any, List, NamedTuple

import pytest

from tests.shared import pages
from tests.shared.closed_streams import enter_root
from tests.shared.processes import TIMEOUT, TOP, run

from .releases import (
    PROGRAMS,
    RELEASE_MARKS,
    Releases,
    control_field,
    examples_of,
    modes_below,
    sum_of,
    sums_below,
)

pytestmark = RELEASE_MARKS

DOCS = "usr/share/doc/vintsaky"
IN_PACKAGE = {
    "twogtp": "usr/bin/twogtp",
    "gtp_check": "usr/bin/gtp_check",
    "gtp_engine": "usr/games/gtp_engine",
}
MANUALS = ["share/man/man1/twogtp.1", "share/man/man1/gtp_check.1", "share/man/man6/gtp_engine.6"]
README_EXAMPLES = examples_of(TOP / "packaging/README.release.md")
# Programs and the library as they lie in a clone.
IN_A_CLONE = re.compile(
    r"(?<![\w/])(?:\./)?(?:bin/(?:twogtp|gtp_check|gtp_engine|lib)|-Ilib|library/|interop/\w*"
    r"|/home/me/vintsaky)"
)
PLAYED = (0, "2 of 2 games have a result", "")


class Tree(NamedTuple):
    """An archive or a package that is unpacked."""

    folder: Path
    pages: Path
    scripts: Path
    engine: Path
    path: str  # the PATH of somebody who has it


@pytest.fixture(params=["archive", "package"])
def tree(request: pytest.FixtureRequest) -> Tree:
    """Returns the archive, and then the package."""
    folder: Path = request.getfixturevalue(f"{request.param}_tree")
    path = os.environ["PATH"]
    if request.param == "archive":
        # its scripts find twogtp from where they lie
        return Tree(folder, folder, folder / "share/tournament", folder / "bin/gtp_engine", path)
    scripts, engine = folder / "usr/share/vintsaky/tournament", folder / IN_PACKAGE["gtp_engine"]
    path = os.pathsep.join([f"{folder}/usr/bin", path])
    return Tree(folder, folder / DOCS, scripts, engine, path)


# ---- files


def test_no_file_has_a_path_of_its_builder(tree: Tree, releases: Releases) -> None:
    assert releases.files_with_own_paths(tree.folder) == []


def test_notices_are_there(tree: Tree) -> None:
    names = {file.name for file in (tree.pages / "notices").iterdir()}
    assert names >= {"README", "clap-LICENSE-MIT", "libc6-dev-copyright"}


def test_scripts_for_tournaments_are_those_of_the_commit(tree: Tree, releases: Releases) -> None:
    own = releases.one.copy / "tournament"
    modes = {name: 0o755 if mode & 0o100 else 0o644 for name, mode in modes_below(own).items()}
    assert 0o755 in modes.values()
    assert sums_below(tree.scripts) == sums_below(own)
    assert modes_below(tree.scripts) == modes


def play_tournament(scripts: Path, engine: Path, path: str, folder: Path) -> Any:
    """Returns what comes of a tournament of two games: its status, its last line and errors."""
    engines = ["--engine", f"a={engine}", "--engine", f"b={engine} --policy random --seed %s"]
    options = ["--seeds", "1", "--", "--size", "3", "--max-moves", "4"]
    command = [scripts / "tournament", "play", folder / "games", *engines, *options]
    done = run(command, env={**os.environ, "PATH": path})
    return done.returncode, (done.stdout.splitlines() or [""])[-1], done.stderr


def test_tournament_is_played(tree: Tree, tmp_path: Path) -> None:
    assert play_tournament(tree.scripts, tree.engine, tree.path, tmp_path) == PLAYED


def test_package_has_its_files_where_they_are_promised(package_tree: Path) -> None:
    manuals = [f"usr/{manual}.gz" for manual in MANUALS]
    modes = {
        **dict.fromkeys(IN_PACKAGE.values(), 0o755),
        **dict.fromkeys([*manuals, f"{DOCS}/copyright"], 0o644),
    }
    assert {**modes_below(package_tree), **modes} == modes_below(package_tree)


@pytest.mark.parametrize("page", ["PROVENANCE", "docs/rules.md", "notices/README"])
def test_package_has_the_page_of_the_archive(
    page: str, archive_tree: Path, package_tree: Path
) -> None:
    assert sum_of(package_tree / DOCS / page) == sum_of(archive_tree / page)


@pytest.mark.parametrize("program", PROGRAMS)
def test_package_has_the_program_of_the_archive(
    program: str, archive_tree: Path, package_tree: Path
) -> None:
    assert sum_of(package_tree / IN_PACKAGE[program]) == sum_of(archive_tree / "bin" / program)


# ---- pages


def test_pages_are_there(tree: Tree) -> None:
    names = {page.name for page in tree.pages.rglob("*.md")}
    assert names >= {"README.md", "CHANGELOG.md", "library.md", "tournaments.md"}


def test_links_lead_to_files_and_headings(tree: Tree) -> None:
    assert [link for page in tree.pages.rglob("*.md") for link in pages.lost_links(page)] == []


def test_no_page_has_a_mark_that_is_left(tree: Tree) -> None:
    texts = {page: page.read_text() for page in tree.pages.rglob("*.md")}
    assert [page for page, text in texts.items() if re.search(r"<!--|@[A-Z]+@", text)] == []


def test_no_page_of_the_package_names_files_of_a_clone(package_tree: Path) -> None:
    named = [
        f"{page.name}: {name}"
        for page in (package_tree / DOCS).rglob("*.md")
        for name in IN_A_CLONE.findall(page.read_text())
    ]
    assert named == []


def need_program(command: str) -> None:
    """Skips the test where somebody else's program that a command names isn't there."""
    for program in re.findall(r"/usr/games/(?!gtp_engine)\w+", command):
        if not os.access(program, os.X_OK):
            pytest.skip(f"there is no {program} (apt-get install {Path(program).name})")


def examples_in(tree: Path) -> List[str]:
    """Returns the examples of a README, of which there are as many as in the repository."""
    examples = list(examples_of(tree / "README.md"))
    assert len(examples) == len(README_EXAMPLES) == 2
    return examples


each_example = pytest.mark.parametrize("number", [0, 1], ids=["our engines", "GNU Go"])


@each_example
def test_example_in_the_readme_of_the_archive(number: int, archive_tree: Path) -> None:
    command = examples_in(archive_tree)[number]
    need_program(command)
    done = run(["bash", "-c", command], cwd=archive_tree, timeout=10 * TIMEOUT)
    shown = examples_of(archive_tree / "README.md")[command]
    assert (done.returncode, done.stdout, done.stderr) == (0, shown, "")


@each_example
def test_example_in_the_readme_of_the_package(number: int, package_tree: Path) -> None:
    readme = package_tree / DOCS
    command = examples_in(readme)[number]
    words = shlex.split(command)
    # the engine by its path, which may not be in the PATH of root
    assert (words[0], "'/usr/games/gtp_engine " in command) == ("twogtp", True)
    need_program(command)
    environment = dict(os.environ)
    if number == 0:
        words = [*enter_root(package_tree), f"/usr/bin/{words[0]}", *words[1:]]
    else:
        own = str(package_tree / IN_PACKAGE["gtp_engine"])
        words = ["bash", "-c", command.replace("/usr/games/gtp_engine", own)]
        environment["PATH"] = os.pathsep.join([f"{package_tree}/usr/bin", os.environ["PATH"]])
    done = run(words, env=environment, timeout=10 * TIMEOUT)
    shown = examples_of(readme / "README.md")[command]
    assert (done.returncode, done.stdout, done.stderr) == (0, shown, "")


def test_archive_is_installed_as_its_readme_says(archive_tree: Path, tmp_path: Path) -> None:
    readme = (archive_tree / "README.md").read_text()
    assert re.findall(r"`man -l ([^`]*)`", readme) == MANUALS[:1]
    (command,) = re.findall(r"`(cp -r [^`]*) /usr/local/`", readme)
    prefix = tmp_path / "prefix"
    prefix.mkdir()
    done = run(["bash", "-c", f'{command} "$0"', prefix], cwd=archive_tree)
    assert (done.returncode, done.stderr) == (0, "")
    files = [*MANUALS, *(f"bin/{program}" for program in PROGRAMS)]
    assert [file for file in files if not (prefix / file).is_file()] == []
    scripts, engine = prefix / "share/tournament", prefix / "bin/gtp_engine"
    assert play_tournament(scripts, engine, os.environ["PATH"], tmp_path) == PLAYED


# ---- what Debian reads of the package


@pytest.mark.parametrize(
    "field, value",
    [
        ("Package", "vintsaky"),
        ("Architecture", "amd64"),
        ("Depends", ""),
        ("Recommends", "python3 (>= 3.9)"),
        ("Suggests", "gnugo, parallel"),
        ("Homepage", ""),
    ],
)
def test_field_of_the_package(field: str, value: str, releases: Releases) -> None:
    assert control_field(releases.one.package("vintsaky"), field) == value


def test_package_has_the_version_of_its_name(releases: Releases, package_tree: Path) -> None:
    name = releases.one.name
    assert control_field(releases.one.package("vintsaky"), "Version") == name
    changelog = run(["zcat", package_tree / DOCS / "changelog.gz"]).stdout
    assert changelog.startswith(f"vintsaky ({name}) unstable; urgency=medium\n")


# ---- the programs


@pytest.mark.parametrize("program", PROGRAMS)
def test_program_asks_for_no_interpreter(program: str, archive_tree: Path) -> None:
    data = (archive_tree / "bin" / program).read_bytes()
    (start,) = struct.unpack_from("<Q", data, 32)
    size, count = struct.unpack_from("<HH", data, 54)
    kinds = [struct.unpack_from("<I", data, start + size * row)[0] for row in range(count)]
    assert kinds != []
    assert 3 not in kinds  # PT_INTERP


@pytest.mark.cc
@pytest.mark.parametrize("program", PROGRAMS)
def test_program_can_be_linked_again(program: str, archive_tree: Path, tmp_path: Path) -> None:
    linked = tmp_path / program
    run(["cc", "-static-pie", "-o", linked, archive_tree / f"objects/{program}.o"])
    own, again = (run([file, "--version"]) for file in (archive_tree / "bin" / program, linked))
    assert (again.returncode, again.stdout) == (0, own.stdout)


@pytest.fixture(scope="module")
def root(archive_tree: Path, tmp_path_factory: pytest.TempPathFactory) -> Path:
    """Returns a folder that has the programs of the archive in bin/, and nothing else."""
    root = tmp_path_factory.mktemp("empty") / "root"
    shutil.copytree(archive_tree / "bin", root / "bin")
    files = {str(file.relative_to(root)) for file in root.rglob("*")}
    assert files == {"bin", *(f"bin/{program}" for program in PROGRAMS)}
    return root


BOOK = re.findall(r"engine='(bin/gtp_engine [^']*)'", (TOP / "demo").read_text())[0]
SHOWN = ["bin/twogtp", *"--size 5 --komi 0.5 --record --show --white".split(), BOOK, "--black"]
RANDOM = "bin/gtp_engine --policy random --seed"


class Trial(NamedTuple):
    """A command of the programs, and what it reads."""

    name: str
    command: List[str]
    text: str = ""


TRIALS = [
    Trial("the demo's match", [*SHOWN, BOOK]),
    Trial("the demo's match, in which Black dies", [*SHOWN, f"{BOOK} --fault stop:5"]),
    Trial(
        "random games",
        ["bin/twogtp", "--black", f"{RANDOM} 1", "--white", f"{RANDOM} 2"]
        + ["--games", "3", "--record"],
    ),
    Trial(
        "an engine that isn't there",
        ["bin/twogtp", "--black", "bin/mygo", "--white", "bin/gtp_engine", "--why"],
    ),
    Trial(
        "an engine that floods",
        ["bin/twogtp", "--black", "bin/gtp_engine --fault flood:1"]
        + ["--white", f"{RANDOM} 3", "--why"],
    ),
    Trial("a mistake in the options", ["bin/twogtp", "--black", "x"]),
    Trial(
        "an engine that ends at a fault",
        ["bin/gtp_engine", "--fault", "cut:2:3"],
        "genmove b\ngenmove w\nname\n",
    ),
    Trial("a bad book", ["bin/gtp_engine", "--book", "x"], "name\n"),
    Trial("a check", ["bin/gtp_check", "--quick", "bin/gtp_engine"]),
    Trial(
        "a check that finds something",
        ["bin/gtp_check", "--singly", "--only", "ko", "bin/gtp_engine --ko positional"],
    ),
    Trial("a check of an engine that isn't there", ["bin/gtp_check", "bin/mygo"]),
    *(
        Trial(f"{program} {option}", [f"bin/{program}", option])
        for program in PROGRAMS
        for option in ("--help", "--version")
    ),
]


def outcome(done: CompletedProcess[str]) -> List[Any]:
    """Returns the status of a command, and what it has written."""
    return [done.returncode, done.stdout, done.stderr]


@pytest.mark.parametrize("trial", TRIALS, ids=lambda trial: trial.name)
def test_program_in_an_empty_root_does_the_same_as_the_built_one(trial: Trial, root: Path) -> None:
    built = run(trial.command, trial.text, cwd=TOP, timeout=10 * TIMEOUT)
    done = run([*enter_root(root), *trial.command], trial.text, timeout=10 * TIMEOUT)
    assert outcome(done) == outcome(built)


@pytest.mark.parametrize("program", PROGRAMS)
def test_full_output_in_an_empty_root(program: str, root: Path) -> None:
    command = [f"bin/{program}", "--help"]
    with open("/dev/full", "wb") as full:
        built = run(command, cwd=TOP, stdout=full)
        done = run([*enter_root(root), *command], stdout=full)
    assert outcome(done) == outcome(built)


def test_first_conversation_of_a_page_in_an_empty_root(root: Path) -> None:
    block = pages.blocks_of((TOP / "docs/protocol.md").read_text())[0]
    found = re.match(r"\$ (printf '[^']*') \| gtp_engine (.*)\n", block)
    assert found
    text = run(["bash", "-c", found[1]]).stdout
    done = run([*enter_root(root), "bin/gtp_engine", *found[2].split()], text)
    assert (done.returncode, done.stdout, done.stderr) == (0, block[found.end() :], "")
