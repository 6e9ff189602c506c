"""The manual pages, compared with what the programs say of themselves, and their examples."""
from __future__ import annotations

import re
from pathlib import Path
from typing import Dict, List, NamedTuple, Optional

import pytest

from tests.conftest import built
from tests.shared.processes import TIMEOUT, run

from .manuals import (
    EXAMPLE_COUNTS,
    PAGES,
    check_example,
    each_example,
    each_program,
    examples,
    items,
    plain,
    section,
)
from .releases import PROGRAMS

# What the example of --help prints.
PRINTED = {
    "twogtp": r"game 1: \S+ moves \d+ restarts 0 0\n",
    "gtp_engine": r"=\n\n= [A-HJ][1-9]\n\n=\n\n",
    "gtp_check": r"check: (?:.*\n)*check: \d+ commands, \d+ starts?, 0 complaints\n",
}
# The limits and the names that the engine's options take.
ENGINE_VALUES = {
    "policy": ["first", "random", "book"],
    "seed": ["0 to 4294967295"],
    "ko": ["simple", "positional"],
    "book": ["at most 2000"],
    "fault": ["none", "stop:N", "cut:N:K", "junk:N", "flood:N"],
}

# What the engine writes on standard error, by its statuses.
ENGINE_MESSAGES: Dict[str, List[str]] = {
    "0": [],
    "2": ["bad book", "bad fault", "bad argument"],
    "3": ["read fault", "write fault", "out of memory", "too many reads"]
    + ["a standard stream is closed, and /dev/null can't be opened"],
    "4": [],
}


class Option(NamedTuple):
    """An option: its name, whether it takes a value, its default, and what else is said of it."""

    name: str
    takes_value: bool
    default: Optional[str]
    is_required: bool
    words: str


def manual_options(page: str) -> List[Option]:
    """Returns the options of a manual page."""
    options = []
    for head, text in items(page).items():
        if found := re.fullmatch(r"(?:Fl h , |Fl V , )?Fl -([\w-]+)( Ar .*)?", head):
            words = plain(text)
            default = first(r"The default is (\S+|the [^.]*)\.(?: |$)", words)
            is_required = "It has to be given." in words
            options.append(Option(found[1], found[2] is not None, default, is_required, words))
    return options


def help_options(text: str) -> List[Option]:
    """Returns the options of --help, each in a line or several."""
    usage = first(r"\nUsage: (.*)\n", text) or ""
    rows = re.sub(r"\n {15,}", " ", text.partition("\nOptions:\n")[2].partition("\n\n")[0])
    options = []
    row = r"^ +(?:-\w, )?--([\w-]+)( <\w+>)? +(.*)$"
    for name, value, words in re.findall(row, rows, re.MULTILINE):
        default = first(r"\[default: ([^]]*)\]", words)
        options.append(Option(name, value != "", default, f"--{name}" in usage, words))
    return options


def first(pattern: str, text: str) -> Optional[str]:
    """Returns the group of the first place where a pattern matches, or None."""
    found = re.search(pattern, text)
    return found[1] if found else None


def values(words: str) -> List[str]:
    """Returns the limits and the names of values that --help has."""
    limit = r"\d+(?: or \d+)? to \d+|at most \d+|-?\d+\.5\b"
    names = re.search(r": ((?:[\w:]+, )*[\w:]+ or [\w:]+) \[", words)
    limits = re.findall(limit, re.sub(r"\[.*", "", words))
    return limits + (re.split(", | or ", names[1]) if names else [])


# ---- --help


@pytest.fixture
def help_text(program: str, programs: Path) -> str:
    """Returns what a program says of itself."""
    text: str = run([built(programs, program), "--help"]).stdout
    return text


@each_program
def test_help_fits_80_columns(program: str, help_text: str) -> None:
    assert [line for line in help_text.splitlines() if len(line) > 80] == []


@each_program
def test_example_of_help_runs(
    program: str, help_text: str, environment: Dict[str, str], tmp_path: Path
) -> None:
    (command,) = re.findall(r"^Example:\n  (.*)$", help_text, re.MULTILINE)
    command = re.sub("'gnugo .*'", "gtp_engine", command)  # somebody else's program
    done = run(["bash", "-c", command], cwd=tmp_path, env=environment, timeout=10 * TIMEOUT)
    assert (done.returncode, done.stderr) == (0, "")
    assert re.fullmatch(PRINTED[program], done.stdout)


# ---- the pages, compared with --help


@each_program
def test_manual_page_has_the_options_of_help_in_its_order(program: str, help_text: str) -> None:
    named = [option.name for option in manual_options(PAGES[program])]
    assert named == [option.name for option in help_options(help_text)]


OPTIONS = [
    pytest.param(program, option, id=f"{program} --{option.name}")
    for program in PROGRAMS
    for option in manual_options(PAGES[program])
]


@pytest.mark.parametrize("program, option", OPTIONS)
def test_option_is_the_same_in_help(program: str, option: Option, help_text: str) -> None:
    (helped,) = [other for other in help_options(help_text) if other.name == option.name]
    assert option._replace(words="") == helped._replace(words="")
    assert [value for value in values(helped.words) if value not in option.words] == []


@pytest.mark.parametrize("program, option", OPTIONS)
def test_option_is_in_the_synopsis(program: str, option: Option) -> None:
    synopsis = section(PAGES[program], "SYNOPSIS")
    assert re.search(rf"Fl (?:\w \| )?-{option.name}( |$)", synopsis, re.MULTILINE)


@pytest.mark.parametrize("program", ["gtp_engine"])
def test_values_of_the_engine_are_found(program: str, help_text: str) -> None:
    options = [option for option in help_options(help_text) if option.takes_value]
    assert {option.name: values(option.words) for option in options} == ENGINE_VALUES


def letters(text: str) -> str:
    """Returns the letters of a text, as small ones."""
    return re.sub(r"[^a-z]+", " ", text.lower()).strip()


@pytest.mark.parametrize("program", ["twogtp", "gtp_check"])
def test_statuses_are_those_of_help(program: str, help_text: str) -> None:
    rows = re.findall(r"^  (\d)  (.*)$", help_text.partition("\nStatus:\n")[2], re.MULTILINE)
    named = items(section(PAGES[program], "EXIT STATUS"))
    assert rows != []
    assert {number: letters(plain(words)) for number, words in named.items()} == {
        number: letters(words) for number, words in rows
    }


@pytest.mark.parametrize("program", ["gtp_engine"])
def test_statuses_of_the_engine_are_those_of_help(program: str, help_text: str) -> None:
    # with more messages than --help has room for
    rows = re.findall(r"^  (\d)  ", help_text.partition("\nStatus:\n")[2], re.MULTILINE)
    named = items(section(PAGES[program], "EXIT STATUS"))
    assert list(named) == rows == list(ENGINE_MESSAGES)
    for number, messages in ENGINE_MESSAGES.items():
        words = plain(named[number])
        assert [message for message in messages if message not in words] == []


@pytest.mark.parametrize("program", ["twogtp"])
def test_verdicts_are_those_of_help(program: str, help_text: str) -> None:
    table = help_text.partition("\nVerdicts:\n")[2].partition("\n\n")[0]
    rows = re.findall(r"^  (\S.*?)  +\S", table, re.MULTILINE)
    verdicts = [
        verdict
        for row in rows
        for verdict in row.strip().replace("CAUSE", "cause").split(", ")
        if ".." not in verdict
    ]
    heads = plain(" ".join(items(section(PAGES["twogtp"], "DESCRIPTION"))))
    assert len(verdicts) > 5
    assert [verdict for verdict in verdicts if verdict not in heads] == []


@pytest.mark.parametrize("program", ["twogtp"])
def test_causes_are_those_of_help(program: str, help_text: str) -> None:
    (text,) = re.findall(r"CAUSE is ([^.]*?)\n *unfit ", help_text, re.DOTALL)
    causes = re.split(r",\s+|\s+or\s+", re.sub(r"\s+", " ", text))
    description = plain(section(PAGES["twogtp"], "DESCRIPTION"))
    assert [cause for cause in causes if cause not in description] == []


# ---- examples


@each_program
def test_manual_page_has_examples(program: str) -> None:
    assert len(examples(PAGES[program])) == EXAMPLE_COUNTS[program]


@each_example
def test_example_prints_what_is_shown(
    program: str, number: int, programs: Path, environment: Dict[str, str], tmp_path: Path
) -> None:
    for name in PROGRAMS:
        built(programs, name)
    (tmp_path / "bin").symlink_to(programs)
    check_example(examples(PAGES[program])[number], tmp_path, environment)
