"""The archive of a release's sources, and what cargo builds of it without a kit and a network."""
from __future__ import annotations

import os
import re
import shutil
from pathlib import Path
from subprocess import CompletedProcess
from typing import Any, Dict, List, NamedTuple

import pytest

from tests.shared import pages
from tests.shared.processes import TIMEOUT, TOP, run

from .clones import path_without_kit
from .conftest import Trees
from .releases import (
    GAME,
    PROGRAMS,
    RELEASE_MARKS,
    Releases,
    check_calls_in_python,
    check_game,
    engine_in_python,
    modes_below,
    sum_of,
    sums_below,
)

pytestmark = RELEASE_MARKS

LONG = 30 * TIMEOUT
STRIPPED = ["crates", "others", "shims", "vintsaky"]  # the folders that cargo/strip writes
OWN = ["CHANGELOG.md", "Cargo.lock", "Cargo.toml", "PROVENANCE", "README.md"]
PAGES = sorted(
    ["CHANGELOG.md", "README.md", "docs/rules.md", *(f"docs/{page}" for page in pages.OF_LIBRARY)]
)
# What the README says before its first heading, in this order.
SAID = [
    "sources of proved programs, with the contracts taken off",
    "What cargo builds of them is tested, and not proved",
]
# What the blocks of the README show, and what each prints.
README_BLOCKS = {
    "a build and a match": GAME,
    "the way to install": "",
    "an engine in C": GAME,
    "an engine in Python": GAME,
}
PAGE_BLOCKS = ["an engine in C", "an engine in Python", "an engine in Rust", "a search", "a server"]
# Cargo builds for a release without what takes long.
QUICK = {"LTO": "false", "OPT_LEVEL": "0", "CODEGEN_UNITS": "16"}
MANIFEST = '[package]\nname = "mine"\nversion = "0.1.0"\nedition = "2021"\n\n[dependencies]\n'
# An author's engine, which plays the first legal point.
MINE = """\
use vintsaky::{Choice, Colour, Game, ServeError, Vertex};

fn main() -> Result<(), ServeError> {
    let mut first = |game: &Game, colour: Colour| -> Choice {
        game.legal_points(colour).next().map_or(Vertex::Pass.into(), Choice::from)
    };
    vintsaky::serve(&mut first, std::io::stdin(), std::io::stdout())
}
"""


@pytest.fixture(scope="module")
def tree(source_trees: Trees) -> Path:
    """Returns the folder of the sources."""
    return source_trees.one


# ---- files


def test_both_archives_have_a_folder_of_their_name(releases: Releases, source_trees: Trees) -> None:
    names = [f"vintsaky-{release.name}-src" for release in (releases.one, releases.final)]
    assert [tree.name for tree in source_trees] == names


def test_files_at_the_top(tree: Path) -> None:
    names = sorted([*OWN, *STRIPPED, "docs", "library", "notices"])
    assert sorted(file.name for file in tree.iterdir()) == names


def test_pages_are_there(tree: Path) -> None:
    found = [str(page.relative_to(tree)) for page in tree.rglob("*.md")]
    assert sorted(path for path in found if not path.startswith(("others/", "library/"))) == PAGES


@pytest.fixture(scope="module")
def stripped(releases: Releases, tmp_path_factory: pytest.TempPathFactory) -> Path:
    """Returns a workspace of the commit, as cargo/strip writes it."""
    folder = tmp_path_factory.mktemp("stripped") / "workspace"
    done = run([releases.one.copy / "cargo/strip", "--others", "debian", folder], timeout=LONG)
    assert (done.returncode, done.stderr) == (0, "")
    return folder


@pytest.mark.parametrize("folder", STRIPPED)
def test_folder_is_what_cargo_strip_writes(folder: str, tree: Path, stripped: Path) -> None:
    assert sums_below(tree / folder) == sums_below(stripped / folder) != {}


def test_manifest_is_what_cargo_strip_writes(tree: Path, stripped: Path) -> None:
    assert sum_of(tree / "Cargo.toml") == sum_of(stripped / "Cargo.toml")


def test_library_has_what_the_commit_has_for_c_and_python(releases: Releases, tree: Path) -> None:
    own = sums_below(releases.one.copy / "library")
    kept = ("vintsaky.h", "examples/", "python/")
    wanted = {path: file_sum for path, file_sum in own.items() if path.startswith(kept)}
    assert sums_below(tree / "library") == wanted


def test_each_crate_is_there(tree: Path) -> None:
    rows = re.findall(r"^(\w+)[^#:\n]*:", (TOP / "crates.txt").read_text(), re.MULTILINE)
    assert sorted(folder.name for folder in (tree / "crates").iterdir()) == sorted(rows)


def test_own_crates_have_only_rust_and_manifests(tree: Path) -> None:
    files = [file for name in ("crates", "shims", "vintsaky") for file in (tree / name).rglob("*")]
    kinds = {file.suffix for file in files if file.is_file()}
    assert kinds <= {".rs", ".toml", ""}  # the last is .gitignore


def test_nothing_is_of_the_kit_or_of_a_build(tree: Path) -> None:
    names = [file.name for file in tree.rglob("*")]
    assert [name for name in names if name.endswith((".rt", ".antt")) or name == "target"] == []


def test_no_file_has_a_path_of_its_maker(releases: Releases, tree: Path) -> None:
    assert releases.files_with_own_paths(tree) == []


def test_scripts_alone_may_be_executed(releases: Releases, tree: Path) -> None:
    modes = modes_below(tree)
    for name, mode in modes.items():
        if not name.startswith("others/"):
            own = releases.one.copy / name
            may_run = name.startswith("library/") and os.access(own, os.X_OK)
            assert mode == (0o755 if may_run else 0o644), name


# ---- notices


def notice_rows(tree: Path) -> Dict[str, str]:
    """Returns the notice that the README of notices names for each other crate."""
    text = (tree / "notices/README").read_text()
    return dict(re.findall(r"^(\S+): [^;]+; (\S+)$", text, re.MULTILINE))


def other_crates(tree: Path) -> List[Path]:
    """Returns the folders of other people's crates."""
    return sorted((tree / "others").iterdir())


def test_notices_have_a_row_for_each_other_crate(tree: Path) -> None:
    names = [crate.name for crate in other_crates(tree)]
    assert len(names) > 5
    assert sorted(notice_rows(tree)) == names


def test_each_notice_is_there_and_names_a_licence(tree: Path) -> None:
    names = {notice.name for notice in (tree / "notices").iterdir()}
    assert names == {"README", *notice_rows(tree).values()}
    for name in names - {"README"}:
        text = (tree / "notices" / name).read_text()
        assert re.search(r"^License:", text, re.MULTILINE), name


def test_notices_say_that_our_crates_have_no_licence(tree: Path) -> None:
    text = (tree / "notices/README").read_text()
    assert "It has no licence yet: its owner has to choose one." in text


def test_each_other_crate_has_its_licence(tree: Path) -> None:
    assert [crate for crate in other_crates(tree) if not list(crate.glob("LICENSE*"))] == []


def test_each_changed_manifest_says_so(tree: Path) -> None:
    manifests = [crate / "Cargo.toml" for crate in other_crates(tree)]
    begin = "# Changed by cargo/strip"
    assert [file for file in manifests if not file.read_text().startswith(begin)] == []


# ---- pages


def test_readme_says_what_this_is(releases: Releases, tree: Path) -> None:
    text = (tree / "README.md").read_text()
    places = [text.partition("\n## ")[0].find(text) for text in SAID]
    assert -1 not in places
    assert places == sorted(places)
    assert text.startswith(f"# Vintsaky {releases.one.name}: ")


@pytest.mark.parametrize("page", PAGES)
def test_links_lead_to_files_and_headings(page: str, tree: Path) -> None:
    assert pages.lost_links(tree / page) == []


@pytest.mark.parametrize("page", PAGES)
def test_page_names_no_scripts_for_tournaments_and_has_no_mark(page: str, tree: Path) -> None:
    assert re.findall(r"tournament/|<!--|@[A-Z]+@", (tree / page).read_text()) == []


# ---- what cargo builds


class Builder(NamedTuple):
    """A copy of the sources that cargo builds, and its surroundings."""

    tree: Path
    home: Path  # has nothing from before
    installed: Path
    environment: Dict[str, str]

    def run(self, command: List[object], text: str = "", **more: Any) -> CompletedProcess[str]:
        """Returns what comes of a command there."""
        return run(command, text, LONG, **{"cwd": self.tree, "env": self.environment, **more})


@pytest.fixture(scope="module")
def builder(tree: Path, tmp_path_factory: pytest.TempPathFactory) -> Builder:
    """Returns the sources, of which cargo has built the programs where no kit is found."""
    folder = tmp_path_factory.mktemp("built").resolve()
    shutil.copytree(tree, folder / tree.name)
    hidden = re.compile("CARGO|RUSTFLAGS|RUSTC|RUSTDOC|PYTHONPATH$|VINTSAKY_LIBRARY$")
    own = {name: it for name, it in os.environ.items() if not hidden.match(name)}
    own.update({f"CARGO_PROFILE_RELEASE_{name}": it for name, it in QUICK.items()})
    own.update(
        CARGO_HOME=str(folder / "home"),
        CARGO_INSTALL_ROOT=str(folder / "installed"),
        CARGO_NET_OFFLINE="true",
        PATH=path_without_kit(folder),
        PYTHONDONTWRITEBYTECODE="1",
    )
    assert shutil.which("rt", path=own["PATH"]) is None
    return Builder(folder / tree.name, folder / "home", folder / "installed", own)


@pytest.fixture(scope="module")
def built(builder: Builder) -> Builder:
    """Returns the builder after the commands of the README have run, in turn."""
    blocks = pages.blocks_of((builder.tree / "README.md").read_text())
    commands = [block for block in blocks if not block.startswith("vintsaky = ")]
    assert len(commands) == len(README_BLOCKS)
    for block, (name, printed) in zip(commands, README_BLOCKS.items()):
        done = builder.run(["bash", "-ec", block])
        assert done.returncode == 0, (name, done.stdout + done.stderr)
        assert re.fullmatch(printed, done.stdout), (name, done.stdout)
        warnings = re.findall("^warning.*", done.stderr, re.MULTILINE)
        assert [line for line in warnings if "to your PATH" not in line] == [], name
    return builder


@pytest.mark.parametrize("program", PROGRAMS)
def test_program_is_built_and_installed_as_the_readme_says(program: str, built: Builder) -> None:
    own, installed = (
        run([folder / program, "--version"]) for folder in (TOP / "bin", built.installed / "bin")
    )
    assert (installed.returncode, installed.stdout) == (0, own.stdout)


@pytest.mark.parametrize("number", range(len(PAGE_BLOCKS)), ids=PAGE_BLOCKS)
def test_sources_do_what_the_page_of_the_library_shows(number: int, built: Builder) -> None:
    blocks = pages.library_blocks(built.tree / "docs", "")
    assert len(blocks) == len(PAGE_BLOCKS)
    (built.tree / "my_engine.py").write_text(engine_in_python(built.tree / "docs"))
    check_game(built.run(["bash", "-ec", blocks[number]]))


def test_wheel_is_made_as_the_readme_says(built: Builder, tmp_path: Path) -> None:
    readme = (built.tree / "README.md").read_text()
    (command,) = re.findall(r"`(library/python/make_wheel [^`]*)`", readme)
    assert built.run(["bash", "-c", command]).returncode == 0
    (wheel,) = built.tree.glob("*.whl")
    shutil.unpack_archive(wheel, tmp_path, "zip")
    check_calls_in_python(tmp_path)


def test_program_elsewhere_needs_one_line_in_its_manifest(built: Builder) -> None:
    readme = (built.tree / "README.md").read_text()
    (line,) = re.findall(r"^vintsaky = .*$", readme, re.MULTILINE)
    mine, target = built.tree.parent / "mine", built.tree / "target"
    (mine / "src").mkdir(parents=True)
    (mine / "Cargo.toml").write_text(f"{MANIFEST}{line}\n")
    (mine / "src/main.rs").write_text(MINE)
    own = {**built.environment, "CARGO_TARGET_DIR": str(target)}
    command: List[object] = ["cargo", "run", "--release", "--quiet"]
    done = built.run(command, "boardsize 5\ngenmove b\nquit\n", cwd=mine, env=own)
    assert (done.returncode, done.stdout, done.stderr) == (0, "=\n\n= A1\n\n=\n\n", "")
    programs = target / "release"
    players = ["--black", programs / "mine", "--white", programs / "gtp_engine"]
    check_game(built.run([programs / "twogtp", "--size", "5", *players]))


def test_cargo_changes_no_source(tree: Path, built: Builder) -> None:
    sums = sums_below(built.tree)
    assert [name for name, before in sums_below(tree).items() if sums.get(name) != before] == []


def test_cargo_takes_nothing_from_elsewhere(built: Builder) -> None:
    assert list(built.home.glob("registry*")) == []
