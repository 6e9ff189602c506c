"""The examples of the pages print what the pages show.

An example is a block between lines of ``` whose first line begins with `$ `: each such line is a
command, and the lines up to the next one are what it prints, where a line `..` stands for any
lines. The commands run in a folder that has the programs, the scripts of tournament/, and ./demo.
"""
from __future__ import annotations

import os
import re
import shutil
import warnings
from dataclasses import dataclass, field
from pathlib import Path
from subprocess import CompletedProcess
from typing import Dict, List

import pytest

from tests.conftest import built
from tests.shared import pages
from tests.shared.processes import TOP, run

PROGRAMS = ["gtp_engine", "twogtp", "gtp_check"]
# The pages whose examples need nothing but the programs, or name the path of what else they need.
PAGES = [
    "README.md",
    "docs/check.md",
    "docs/engine.md",
    "docs/protocol.md",
    "docs/matches.md",
    "docs/controller.md",
    "docs/troubleshooting.md",
    "docs/tournaments.md",
]
# The pages whose examples aren't run here.
NOT_RUN = {
    "docs/interop.md": "they need GNU Go and Leela Zero, which they name without a path",
    "packaging/README.release.md": "tests/build/test_release_trees.py runs them",
}
OTHER_PROGRAMS = re.compile(r"/usr/games/\w+")
# The pages that quote code, and where it is.
QUOTES = {
    "crates/gtp_match/CALLING.md": [
        "crates/twogtp_app/src",
        "crates/gtp_match/src",
        "crates/tests_match/src",
    ],
    "crates/gtp_process/CALLING.md": ["crates/gtp_process/src", "crates/tests_match/src"],
    "crates/gtp_check_judge/CALLING.md": ["crates/gtp_check_judge/src", "crates/tests_check/src"],
}


@dataclass(frozen=True)
class Example:
    """A command of a page, and what is shown below it."""

    page: str
    number: int
    command: str
    shown: str

    def __str__(self) -> str:
        command = self.command if len(self.command) <= 80 else f"{self.command[:77]}.."
        return f"{self.page}: {command}"


def examples_of(page: str) -> List[Example]:
    """Returns the examples of a page."""
    blocks = pages.blocks_of((TOP / page).read_text())
    text = "".join(block for block in blocks if block.startswith("$ "))
    parts = re.split(r"^\$ (.*)\n", text, flags=re.MULTILINE)[1:]
    pairs = zip(parts[::2], parts[1::2])
    return [Example(page, number, *pair) for number, pair in enumerate(pairs)]


EXAMPLES = {page: examples_of(page) for page in PAGES}


# ---- the examples


@dataclass(frozen=True)
class Terminal:
    """A folder in which the examples run, and what came of those that have run."""

    folder: Path
    done: Dict[str, List[CompletedProcess[str]]] = field(default_factory=dict)

    def result(self, example: Example) -> CompletedProcess[str]:
        """Returns what comes of an example. Those before it run first, since it may need them."""
        done = self.done.setdefault(example.page, [])
        path = os.pathsep.join(
            [f"{self.folder}/bin", f"{self.folder}/tournament", os.environ["PATH"]]
        )
        for before in EXAMPLES[example.page][len(done) : example.number + 1]:
            command = ["true"] if missing_program(before) else ["bash", "-c", before.command]
            done.append(run(command, cwd=self.folder, env={**os.environ, "PATH": path}))
        return done[example.number]


@pytest.fixture(scope="module")
def terminal(programs: Path, tmp_path_factory: pytest.TempPathFactory) -> Terminal:
    """Returns a terminal whose folder has the programs, the scripts, and an empty ./build."""
    folder = tmp_path_factory.mktemp("examples")
    (folder / "bin").mkdir()
    for program in PROGRAMS:
        shutil.copy(built(programs, program), folder / "bin")
    shutil.copytree(TOP / "tournament", folder / "tournament")
    shutil.copy(TOP / "demo", folder)
    (folder / "build").write_text("#!/bin/bash\n")
    (folder / "build").chmod(0o755)
    return Terminal(folder)


def missing_program(example: Example) -> str:
    """Returns the first of somebody else's programs that a command names and that isn't there."""
    named = OTHER_PROGRAMS.findall(example.command)
    return next((it for it in named if not os.access(it, os.X_OK)), "")


def is_shown(shown: str, printed: str) -> bool:
    """Tells whether this is shown of what was printed."""
    lines = shown.splitlines(keepends=True)
    pattern = "".join("(?:.*\n)*" if line == "..\n" else re.escape(line) for line in lines)
    return re.fullmatch(pattern, printed) is not None


@pytest.mark.xdist_group("examples")
@pytest.mark.parametrize("example", [it for page in PAGES for it in EXAMPLES[page]], ids=str)
def test_example_prints_what_is_shown(example: Example, terminal: Terminal) -> None:
    done = terminal.result(example)
    if missing := missing_program(example):
        pytest.skip(f"there is no {missing}")
    printed = done.stdout + done.stderr
    assert is_shown(example.shown, printed), f"shown:\n{example.shown}\nprinted:\n{printed}"


@pytest.mark.parametrize("page", PAGES)
def test_page_has_examples(page: str) -> None:
    assert EXAMPLES[page]


@pytest.mark.parametrize("page", pages.page_paths())
def test_each_example_of_a_page_is_run(page: str) -> None:
    blocks = pages.blocks_of((TOP / page).read_text())
    prompts = [block for block in blocks if re.search(r"^ *\$ ", block, re.MULTILINE)]
    if page in NOT_RUN:
        assert prompts, "it has no example, so there is nothing that isn't run"
    else:
        left = [block for block in prompts if page not in PAGES or not block.startswith("$ ")]
        assert left == []


# ---- what else the pages quote


def without_margin(text: str) -> str:
    """Returns the lines of a text without the spaces around them."""
    return "\n".join(line.strip() for line in text.splitlines())


@pytest.mark.parametrize(
    "page, code",
    [
        pytest.param(page, code, id=f"{page}: {code.splitlines()[0].strip()}")
        for page in QUOTES
        for code in pages.blocks_in((TOP / page).read_text(), "rust")
    ],
)
def test_quoted_code_is_in_a_source(page: str, code: str) -> None:
    sources = [it for folder in QUOTES[page] for it in sorted((TOP / folder).rglob("*.rt"))]
    assert any(without_margin(code) in without_margin(it.read_text()) for it in sources)


@pytest.mark.kit
def test_readme_names_the_logic_of_the_kit() -> None:
    # kits of one logic differ in their number alone
    number, _, logic = run(["rt", "version"]).stdout.strip().partition(" logic ")
    readme = (TOP / "README.md").read_text()
    assert logic != ""
    assert re.search(rf"`rattle-kit-\S+ logic {re.escape(logic)}`", readme)
    if not re.search(rf"\b{re.escape(number)}\b", readme):
        warnings.warn(f"README.md doesn't name {number}")
