"""The manual pages, and their examples."""
from __future__ import annotations

import os
import re
from pathlib import Path
from typing import Dict, List, NamedTuple

import pytest

from tests.shared.processes import TOP, run

from .releases import PROGRAMS

MANUALS = {"twogtp": "twogtp.1", "gtp_engine": "gtp_engine.6", "gtp_check": "gtp_check.1"}
PAGES = {program: (TOP / "packaging" / MANUALS[program]).read_text() for program in PROGRAMS}
EXAMPLE_COUNTS = {"twogtp": 4, "gtp_engine": 3, "gtp_check": 2}
ESCAPES = {r"\(aq": "'", r"\-": "-", r"\e": "\\", r"\&": ""}

each_program = pytest.mark.parametrize("program", PROGRAMS)
each_example = pytest.mark.parametrize(
    "program, number",
    [
        pytest.param(program, number, id=f"{program} {number + 1}")
        for program in PROGRAMS
        for number in range(EXAMPLE_COUNTS[program])
    ],
)


def unescaped(text: str) -> str:
    """Returns a text with the characters that mdoc's escapes stand for."""
    for escape, character in ESCAPES.items():
        text = text.replace(escape, character)
    return text


def plain(text: str) -> str:
    """Returns the words of a part of a manual page, without its macros."""
    text = re.sub(r"^\.(Bl|El|Bd|Ed|Pp)\b.*", "", text, flags=re.MULTILINE)
    text = re.sub(r"^\.(It|Li|Ar|Dl|Pa|Ev|Nm|Fl|Pq|Ql) ?", "", text, flags=re.MULTILINE)
    words = re.sub(r"\s+", " ", unescaped(text))
    return re.sub(r" +([.,;:)])", r"\1", words).strip()


def section(page: str, name: str) -> str:
    """Returns the section of a manual page that has this name."""
    found = re.search(rf"^\.Sh {name}\n(.*?)(?=^\.Sh |\Z)", page, re.MULTILINE | re.DOTALL)
    assert found, name
    return found[1]


def items(text: str) -> Dict[str, str]:
    """Returns the words of the items of lists, by the heads of the items."""
    return dict(
        re.findall(r"^\.It ([^\n]+)\n(.*?)(?=^\.It |^\.El|\Z)", text, re.MULTILINE | re.DOTALL)
    )


class Example(NamedTuple):
    """The commands of an example, and what it shows."""

    commands: str
    shown: str


def examples(page: str) -> List[Example]:
    """Returns the examples of a manual page."""
    block = r"^\.Bd -literal[^\n]*\n(.*?)^\.Ed"
    found = []
    for text in re.findall(block, section(page, "EXAMPLES"), re.MULTILINE | re.DOTALL):
        text = unescaped(text)
        commands = "\n".join(re.findall(r"^\$ (.*)$", text, re.MULTILINE))
        found.append(Example(commands, re.sub(r"^\$ .*\n", "", text, flags=re.MULTILINE)))
    return found


def check_example(example: Example, folder: Path, environment: Dict[str, str]) -> None:
    """Fails unless the commands print what is shown, in this folder."""
    for program in re.findall(r"/usr/games/(?!gtp_engine)\w+", example.commands):
        if not os.access(program, os.X_OK):
            pytest.skip(f"there is no {program} (apt-get install {Path(program).name})")
    commands = example.commands.replace("/usr/games/gtp_engine", "gtp_engine")
    done = run(["bash", "-c", f"exec 2>&1; {commands}"], cwd=folder, env=environment)
    assert done.stdout == example.shown
