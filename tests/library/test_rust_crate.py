"""The crate in Rust: its tests, what cargo says of it, and programs that depend on it."""
from __future__ import annotations

import os
import re
from pathlib import Path
from subprocess import CompletedProcess
from typing import Any, Dict

import pytest

from tests.shared.processes import TIMEOUT, TOP, run

pytestmark = pytest.mark.xdist_group("the crate in Rust")

CRATE = TOP / "library/rust"
LEAST_TESTS = 70
# A program of another author's, what it reads, and what it writes. On A2 Black would make the board
# of the second move again.
PROGRAM = """\
use vintsaky::{Choice, Colour, Game, KoRule, Player, ServeError};

struct First;

impl Player for First {
    fn choose(&mut self, game: &Game, colour: Colour) -> Choice {
        game.legal_points(colour).next().map_or(Choice::Resign, Choice::from)
    }

    fn rule(&self) -> KoRule {
        KoRule::Positional
    }
}

fn main() -> Result<(), ServeError> {
    vintsaky::serve(&mut First, std::io::stdin(), std::io::stdout())
}
"""
INPUT = "boardsize 2\nplay b A1\nplay b A2\nplay w B1\nplay w B2\nplay b A1\n7 genmove b\nquit\n"
OUTPUT = "=\n\n" * 6 + "=7 resign\n\n=\n\n"
MANIFEST = """\
[package]
name = "elsewhere"
version = "0.1.0"
edition = "2021"

[dependencies]
vintsaky = {{ path = "{}" }}
"""


def cargo(package: Path, command: str, *words: str, **variables: str) -> CompletedProcess[Any]:
    """Returns what comes of a command of cargo on a package."""
    inherited = {name: it for name, it in os.environ.items() if name != "CARGO_TARGET_DIR"}
    own = {"CARGO_NET_OFFLINE": "true", "CARGO_TERM_COLOR": "never", **variables}
    manifest = ["--manifest-path", package / "Cargo.toml"]
    return run(
        ["cargo", command, *manifest, *words], env={**inherited, **own}, timeout=10 * TIMEOUT
    )


def files_of_crate() -> Dict[Path, bytes]:
    """Returns the files of the crate in the tree."""
    return {path: path.read_bytes() for path in CRATE.rglob("*") if path.is_file()}


@pytest.mark.cargo
def test_tests_of_the_crate_pass(rust_workspace: Path) -> None:
    before = files_of_crate()
    done = cargo(rust_workspace / "vintsaky", "test")
    assert done.returncode == 0, done.stdout + done.stderr
    results = re.findall("^test result: .*", done.stdout, re.MULTILINE)
    form = "test result: ok. ([0-9]+) passed; 0 failed; 0 ignored"
    passed = [re.match(form, result) for result in results]
    assert sum(int(it[1]) for it in passed if it) >= LEAST_TESTS
    assert all(passed), results
    assert files_of_crate() == before, "the tests change the tree"


@pytest.mark.cargo
@pytest.mark.parametrize(
    "command, options",
    [("clippy", ["--no-deps", "--all-targets", "--", "-D", "warnings"]), ("fmt", ["--check"])],
)
def test_linter_finds_nothing(command: str, options: list[str], rust_workspace: Path) -> None:
    if run(["cargo", command, "--version"]).returncode:
        pytest.skip(f"there is no cargo {command}")
    done = cargo(rust_workspace / "vintsaky", command, *options)
    assert done.returncode == 0, done.stdout + done.stderr


@pytest.mark.cargo
def test_documentation_has_no_warning(rust_workspace: Path) -> None:
    done = cargo(rust_workspace / "vintsaky", "doc", "--no-deps", RUSTDOCFLAGS="-D warnings")
    assert done.returncode == 0, done.stderr


def test_crate_has_no_unsafe_code_and_nothing_of_c() -> None:
    texts = {it.name: re.sub("//.*", "", it.read_text()) for it in CRATE.glob("*/**/*.rs")}
    words = {name: re.findall(r"\b(?:unsafe|extern)\b.*", text) for name, text in texts.items()}
    assert {name: found for name, found in words.items() if found} == {}


def test_compiler_forbids_unsafe_code() -> None:
    assert "#![forbid(unsafe_code)]" in (CRATE / "src/lib.rs").read_text()


def test_crate_links_no_library() -> None:
    assert not (CRATE / "build.rs").exists()
    assert "links" not in (CRATE / "Cargo.toml").read_text()


@pytest.mark.cargo
@pytest.mark.parametrize("is_member", [False, True], ids=["alone", "in a workspace of its own"])
def test_program_elsewhere_depends_on_the_crate_by_its_path(
    is_member: bool, rust_workspace: Path, tmp_path: Path
) -> None:
    package = tmp_path / "engine"
    (package / "src").mkdir(parents=True)
    (package / "Cargo.toml").write_text(MANIFEST.format(rust_workspace / "vintsaky"))
    (package / "src/main.rs").write_text(PROGRAM)
    if is_member:
        workspace = '[workspace]\nresolver = "2"\nmembers = ["engine"]\n'
        (tmp_path / "Cargo.toml").write_text(workspace)
    # what the crate needs is built there already
    built = rust_workspace / "target"
    done = cargo(package, "build", CARGO_TARGET_DIR=str(built))
    assert done.returncode == 0, done.stderr
    played = run([built / "debug/elsewhere"], INPUT)
    assert (played.returncode, played.stdout, played.stderr) == (0, OUTPUT, "")
