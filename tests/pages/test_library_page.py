"""The pages on the library: their commands play a game, and the code that they show does it."""
from __future__ import annotations

import os
import re
import shutil
import sys
from pathlib import Path
from typing import Optional

import pytest

from tests.conftest import built
from tests.references.engine.game import Game
from tests.references.engine.values import BLACK
from tests.references.search.generator import Pcg64
from tests.references.search.playouts import rollout
from tests.shared import pages
from tests.shared.processes import TIMEOUT, TOP, run

TOOLS = ["cc", "python3", "cargo"]
RESULT = re.compile(r"game 1: (?:[BW]\+[0-9.]+|[BW]\+R|0) moves [0-9]+ restarts 0 0\n\Z")
SELF_PLAY = TOP / "library/python/examples/self_play.py"


def blocks_in(page: str, language: str) -> list[str]:
    """Returns the blocks of a page that are in this language."""
    return pages.blocks_in((TOP / page).read_text(), language)


PYTHON = pages.library_blocks(TOP / "docs", "python")
ENGINES = [block for block in PYTHON if "vintsaky.Engine" in block]
OTHERS = [block for block in PYTHON if block not in ENGINES]
ROLLOUTS = [it for it in pages.library_blocks(TOP / "docs", "c") if "_rollout(" in it]
COMMANDS = pages.library_blocks(TOP / "docs", "")


def test_page_has_one_short_engine_in_python() -> None:
    assert [engine.count("\n") <= 12 for engine in ENGINES] == [True]


def test_readme_has_the_same_engine_without_its_name() -> None:
    unnamed = [re.sub(r"    name = .*\n\n", "", engine) for engine in ENGINES]
    assert blocks_in("README.md", "python") == unnamed


def test_page_has_the_example_of_self_play() -> None:
    _, code = SELF_PLAY.read_text().split('"""\n', 1)
    assert OTHERS == [code]


def python_with_numpy() -> Optional[str]:
    """Returns a Python that has numpy: this one, or Debian's."""
    pythons = [it for it in (sys.executable, "/usr/bin/python3") if os.path.exists(it)]
    return next((it for it in pythons if run([it, "-c", "import numpy"]).returncode == 0), None)


def test_self_play_learns_from_games_that_end(shared_library: Path) -> None:
    python = python_with_numpy()
    if python is None:
        pytest.skip("there is no numpy (apt-get install python3-numpy)")
    paths = {"PYTHONPATH": str(TOP / "library/python"), "VINTSAKY_LIBRARY": str(shared_library)}
    done = run([python, "-B", SELF_PLAY], env={**os.environ, **paths}, timeout=10 * TIMEOUT)
    assert (done.returncode, done.stdout, done.stderr) == (0, "True\n", "")


@pytest.mark.cc
def test_rollout_in_c_is_that_of_the_reference(archive: Path, tmp_path: Path) -> None:
    game = Game()
    game.begin(9)
    game.komi = 14
    half_points = rollout(game, BLACK, Pcg64.of_number(1), 2000)
    head = '#include "vintsaky.h"\n#include <stdio.h>\nint main(void) {\n'
    source, program = tmp_path / "page.c", tmp_path / "page"
    source.write_text(f'{head}{"".join(ROLLOUTS)}printf("%d", half_points);\n}}\n')
    warnings = ["-Wall", "-Wextra", "-pedantic"]
    done = run(["cc", f"-I{TOP}/library", *warnings, "-o", program, source, archive])
    assert (done.returncode, done.stdout + done.stderr) == (0, "")
    assert run([program]).stdout == str(half_points)


@pytest.fixture(scope="module")
def folder(
    programs: Path, archive: Path, shared_library: Path, tmp_path_factory: pytest.TempPathFactory
) -> Path:
    """Returns a folder that has what the commands name."""
    folder = tmp_path_factory.mktemp("library")
    made = shutil.ignore_patterns("target", "workspace", "__pycache__")
    for name in ("library", "cargo"):
        shutil.copytree(TOP / name, folder / name, ignore=made)
    for name in ("crates", "crates.txt"):
        (folder / name).symlink_to(TOP / name)
    (folder / "bin").mkdir()
    players = [built(programs, "twogtp"), built(programs, "gtp_engine")]
    for file in (*players, archive, shared_library):
        (folder / "bin" / file.name).symlink_to(file)
    (folder / "my_engine.py").write_text("".join(ENGINES))
    return folder


@pytest.mark.xdist_group("commands of the library's page")
@pytest.mark.parametrize("block", COMMANDS, ids=lambda block: block.splitlines()[0])
def test_commands_play_a_game(block: str, folder: Path) -> None:
    for tool in TOOLS:
        if re.search(rf"\b{tool}\b", block) and not shutil.which(tool):
            pytest.skip(f"there is no {tool}")
    environment = {**os.environ, "PYTHONDONTWRITEBYTECODE": "1", "CARGO_NET_OFFLINE": "true"}
    done = run(["bash", "-ec", block], cwd=folder, env=environment, timeout=10 * TIMEOUT)
    assert done.returncode == 0, done.stdout + done.stderr
    assert RESULT.search(done.stdout), done.stdout
