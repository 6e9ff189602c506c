"""What is played: the command of twogtp for a game, and the game's file, which `between` reads."""
from __future__ import annotations

import marshal
import os
import re
import sys
import time
from typing import TYPE_CHECKING, Sequence

from .. import output
from ..model import COLOURS, GameId, Plan, Side, with_values
from ..store import notes, results
from . import programs

if TYPE_CHECKING:
    from types import CodeType

    from ..store.layout import Places
    from ..store.notes import Notes

# what `between` needs, in the order in which one imports another, and first the packages
PACKAGES = ("", ".relay")
MODULES = (".processes", ".relay.conversation", ".relay.between")
LOADER = ".relay.loader"
OF_CLOCKS = (".relay.clock", ".relay.timing")
PACKAGE = __name__.split(".")[0]
ANNOTATIONS = b"from __future__ import annotations\n"
# of an engine that answered nothing, by a line of --why without its beginning
NO_ANSWER = re.compile(r'not started: .*|\d+ unanswered, (?:the first )?"1 boardsize .*')


class Match:
    """The program, the plan, and what follows from it for each game."""

    def __init__(self, plan: Plan, twogtp: str) -> None:
        self.plan, self.twogtp = plan, twogtp
        self.limit, self.rule, self.is_direct = plan.limit or 0, results.Rule(plan), plan.is_direct
        self.commands = {
            name: engine.words(plan.is_direct) for name, engine in plan.engines.items()
        }
        self.folder = os.getcwd() if plan.folder is None else plan.folder
        self.between = programs.between()
        self.slot = 0  # of the game, in the process that plays it
        self.code: bytes | None = None

    def prepare(self) -> None:
        """Makes what all games need, in the process from which theirs are forked."""
        if self.code is None and not self.is_direct:
            self.code = compiled((*OF_CLOCKS, *MODULES) if self.plan.clock else MODULES)

    def command(self, engine: str, seed: int) -> list[str]:
        """Returns the words of an engine's command, in a game with this seed."""
        return [with_values(word, seed, self.slot) for word in self.commands[engine]]

    def words(self, name: str) -> list[str]:
        """Returns the command of twogtp for the game of this name."""
        game = GameId.parse(name)
        if self.is_direct:
            commands = (self.plan.engines[engine].command for engine in game.engines)
            black, white = (with_values(command, game.seed, self.slot) for command in commands)
        else:
            black, white = (f"{self.between} {colour}" for colour in COLOURS)
        engines = ["--black", black, "--white", white]
        return [self.twogtp, "--why", "--record", *self.plan.options, *engines]

    def file(self, name: str, notes_place: str, held: int) -> bytes:
        """Returns the file of a game, whose notes are in this place, and whose process holds this
        pipe."""
        game, plan = GameId.parse(name), self.plan
        parts = [
            f"notes {notes_place}",
            f"folder {self.folder}",
            f"held /proc/{os.getpid()}/fd/{held} {os.fstat(held).st_ino}",
        ]
        values = {
            "limit": plan.start_limit,
            "move-limit": plan.move_limit,
            "clock": plan.clock,
            "margin": plan.margin,
            "opening": plan.opening(game.seed),
        }
        parts += [f"{key} {value}" for key, value in values.items() if value]
        for colour, engine in zip(COLOURS, game.engines):
            parts += [f"{colour} {word}" for word in self.command(engine, game.seed)]
        text = "\0".join([*parts, f"python {sys.version}"])
        return os.fsencode(text) + b"\0\0" + (self.code or b"")


def compiled(names: Sequence[str]) -> bytes:
    """Returns what loads modules, and these modules."""
    packages: list[tuple[str, CodeType | None]] = [(PACKAGE + name, None) for name in PACKAGES]
    modules = [(PACKAGE + name, code_of(PACKAGE + name)) for name in names]
    return marshal.dumps((code_of(PACKAGE + LOADER), [*packages, *modules]))


def code_of(module: str) -> CodeType:
    """Returns the code of a module, without what costs `between` time at its start: docstrings, and
    the import by which annotations aren't evaluated, of which the compiler is told here."""
    import __future__

    place = f"{programs.HERE}/{module.replace('.', '/')}.py"
    with open(place, "rb") as file:
        source = file.read().replace(ANNOTATIONS, b"\n")
    flags = __future__.annotations.compiler_flag
    code: CodeType = compile(source, place, "exec", flags, dont_inherit=True, optimize=2)
    return code


class NotesFile:
    """The notes of a game that is played, and the file by which `between` knows of it.

    That file has another name for each process that plays the game, so what an earlier one left
    can't write into the notes.
    """

    def __init__(self, name: str, places: Places, match: Match) -> None:
        game = f"{places.at}/game.{os.getpid()}"
        self.file, self.place = places.new_notes()
        began = time.strftime(notes.TIME, time.gmtime())
        output.write(self.file, f"{name} on {os.uname().nodename}\nbegan {began}\n")
        held, self.holds = os.pipe()  # whose other end only this process holds
        with open(game, "wb") as file:
            file.write(match.file(name, self.place, held))
        os.environ["TOURNAMENT_GAME"] = game

    def read(self) -> Notes | None:
        """Returns the notes; None where `between` removed them, since they couldn't be written."""
        return notes.read(self.place)

    def close(self, found: Notes, last: str) -> None:
        """Writes the last lines."""
        output.write(self.file, f"thought: {found.times()}\n{last}\n")
        if any(found.late) or any(found.out_of_time):
            os.fsync(self.file)  # it says more than the result


def start_failure(log: str, side: Side) -> str | None:
    """Returns why an engine wasn't started, of which twogtp lost each start before its first
    answer; None where one answered."""
    head, reason = f"twogtp: game 1: {side.colour}: ", None
    with open(log, errors="surrogateescape") as lines:
        for line in lines:
            if line.startswith(head):
                reason = line[len(head) :].rstrip("\n")
                if not NO_ANSWER.fullmatch(reason):
                    return None
    return reason
