"""The command `tournament page`: a tournament as one HTML file."""
from __future__ import annotations

from typing import TYPE_CHECKING

from .. import output
from ..config.plan_file import read_plan
from ..report.page.file import PageFile
from ..report.page.view import Asked
from .losses import rules_of
from .sprt import asked_of
from .tally import is_left_out

if TYPE_CHECKING:
    from ..config.arguments import Arguments


def asked_page(arguments: Arguments) -> Asked:
    """Returns what the arguments ask for."""
    (folder,) = arguments.places
    plan = read_plan(folder)
    leave_out = arguments.last("--no-winner", is_left_out)
    test = asked_of(arguments, plan)
    rules = rules_of(arguments, plan)
    return Asked(folder, rules, bool(leave_out), test, not arguments.has("--without-moves"))


def do_page(arguments: Arguments) -> int:
    """Writes the page of a folder, and returns the status."""
    asked = asked_page(arguments)
    place = arguments.last("-o", lambda _, value: value) or f"{asked.folder}/page.html"
    counts = PageFile(asked, place).write().counts
    output.write(output.STDOUT, f"{place}\n")
    return 0 if counts.have == counts.games.count else 1
