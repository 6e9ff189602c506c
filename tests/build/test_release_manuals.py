"""The manual pages as the archive and the package of a release have them."""
from __future__ import annotations

import os
import re
import shutil
from pathlib import Path

import pytest

from tests.shared.processes import run

from .manuals import MANUALS, check_example, each_example, each_program, examples, section
from .releases import RELEASE_MARKS

pytestmark = RELEASE_MARKS

# The version comes after the system's name, which mandoc would rather choose, and the pages that
# these name aren't installed.
ALLOWED = ["operating system explicitly specified", "referenced manual not found"]
IN_A_CLONE = r"/usr/games/gtp_engine|^\$ (?:twogtp|gtp_check)|(?<!bin/)\bgtp_engine"


def in_archive(program: str, tree: Path) -> Path:
    """Returns the manual page of a program in the archive."""
    manual = MANUALS[program]
    return tree / f"share/man/man{manual[-1]}/{manual}"


@each_program
def test_mandoc_finds_nothing(program: str, archive_tree: Path) -> None:
    if not shutil.which("mandoc"):
        pytest.skip("there is no mandoc (apt-get install mandoc)")
    lines = run(["mandoc", "-T", "lint", in_archive(program, archive_tree)]).stdout.splitlines()
    assert [line for line in lines if not any(text in line for text in ALLOWED)] == []


@each_program
def test_manual_page_is_rendered(program: str, archive_tree: Path) -> None:
    page = in_archive(program, archive_tree)
    if shutil.which("mandoc"):
        done = run(["mandoc", "-T", "ascii", page])
    elif shutil.which("man"):
        done = run(["man", "--local-file", page])
    else:
        pytest.skip("there is no mandoc and no man (apt-get install mandoc)")
    text = re.sub(".\b", "", done.stdout)
    assert (done.returncode, "EXIT STATUS" in text, "Vintsaky" in text) == (0, True, True)


@each_program
def test_archive_names_the_programs_as_they_lie_in_it(program: str, archive_tree: Path) -> None:
    text = section(in_archive(program, archive_tree).read_text(), "EXAMPLES")
    assert re.findall(IN_A_CLONE, text, re.MULTILINE) == []


@each_example
def test_example_of_the_archive_prints_what_is_shown(
    program: str, number: int, archive_tree: Path
) -> None:
    example = examples(in_archive(program, archive_tree).read_text())[number]
    path = os.pathsep.join([f"{archive_tree}/bin", os.environ["PATH"]])
    check_example(example, archive_tree, {**os.environ, "PATH": path})


@each_program
def test_package_names_the_programs_as_they_lie_on_a_machine(
    program: str, package_tree: Path
) -> None:
    # so that the examples run for root too, in whose PATH /usr/games isn't
    manual = MANUALS[program]
    page = package_tree / f"usr/share/man/man{manual[-1]}/{manual}.gz"
    text = section(run(["zcat", page]).stdout, "EXAMPLES")
    assert "/usr/games/gtp_engine" in text
    assert re.findall(r"bin/twogtp|bin/gtp_check|(?<!/usr/games/)\bgtp_engine", text) == []
