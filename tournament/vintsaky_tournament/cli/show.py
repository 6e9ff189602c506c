"""The command `tournament show`: the games of a file as a page."""
from __future__ import annotations

import re
from typing import TYPE_CHECKING, Sequence

from .. import output, sgf
from ..config.setup import Setup
from ..output import Mistake
from ..report.page.conversation import of_conversation
from ..report.page.file import write
from ..report.page.records import LINE, of_sgf, of_twogtp
from ..report.page.show import show
from ..report.page.shown import POSITIONAL, SIMPLE, Shown
from ..store.results import bytes_of

if TYPE_CHECKING:
    from ..config.arguments import Arguments

BEGINS_SGF = re.compile(rb"\A(?:\xef\xbb\xbf)?\s*\(\s*;")
OF_SETUP = ("--size", "--komi", "--handicap")


def do_show(arguments: Arguments) -> int:
    """Writes the page of a file, and returns the status."""
    (file,) = arguments.places
    given = [(name, arguments.last(name, lambda _, value: value)) for name in OF_SETUP]
    setup = checked([f"{name}={value}" for name, value in given if value is not None])
    ko = arguments.last("--ko", rule_of_ko) or SIMPLE
    place = arguments.last("-o", lambda _, value: value) or f"{file}.html"
    games = games_in(file, bytes_of(file), setup, ko)
    write(show(games, file), place)
    output.write(output.STDOUT, f"{place}\n")
    return 0


def checked(options: Sequence[str]) -> Setup:
    """Returns the setup that options ask for."""
    setup = Setup(options)
    try:
        for check in (setup.rows, setup.half_points, setup.stones):
            check()
    except Mistake as mistake:
        raise Mistake(mistake.text.replace("the plan has ", "")) from None
    return setup


def rule_of_ko(name: str, value: str) -> str:
    """Returns the rule that an option names."""
    if value not in (SIMPLE, POSITIONAL):
        raise Mistake(f"{name} needs {SIMPLE} or {POSITIONAL} after it, and not '{value}'")
    return value


def games_in(file: str, data: bytes, setup: Setup, ko: str) -> list[Shown]:
    """Returns the games of a file, whichever form it has."""
    try:
        if BEGINS_SGF.match(data):
            return list(of_sgf(data))
    except sgf.SgfError as error:
        raise Mistake(f"{file} can't be read as SGF: {error}") from None
    text = data.decode("utf-8", "backslashreplace")
    if any(map(LINE.fullmatch, text.splitlines())):
        return list(of_twogtp(text, setup))
    found = list(of_conversation(text, setup.rows(), setup.komi, ko))
    if not found:
        raise Mistake(
            f"{file} has no game: it is to be what twogtp --record writes, SGF, or GTP commands"
        )
    return found
