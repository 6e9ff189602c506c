"""Times the moves of an engine by its clock, and tells the engine of it.

At `clear_board` the engine is asked for its commands first, unless they are known. Then it is told
of the clock by one that it has, behind `clear_board` and before what follows, and before each
`genmove` it is told the time that is left.

An engine that is started again in a game keeps its clock: what it used is in the game's notes.
"""
from __future__ import annotations

from .clock import NOTHING, Clock

TYPE_CHECKING = False  # as of typing, whose import takes longer than all of this
if TYPE_CHECKING:
    from collections.abc import Iterable

LIST, TIME_LEFT = b"list_commands", "time_left"
OTHER_EVENTS = ("thinks", "undone", "refuses", "stays", "not", "late", "waited", "out-of-time")
NO_MOVE = ("failed", "no-vertex")  # of a genmove, whose seconds are charged


class Timing:
    """The clock of an engine, and what the engine knows of it. A move costs its seconds without
    those that the machine gets."""

    def __init__(self, clock: Clock, margin: float) -> None:
        self.clock, self.margin = clock, margin
        self.known: frozenset[str] | None = None  # the engine's commands
        self.told = NOTHING  # what stones are to it
        self.is_new = False  # whether it is to be told of the clock, after clear_board

    def commands_before(self, name: bytes, words: list[bytes]) -> list[bytes]:
        """Returns the commands that the engine gets before this one, whose words begin with its
        name."""
        if name == b"clear_board":
            self.is_new = True
            return [LIST] if self.known is None else []
        commands = []
        if self.is_new and self.known is not None:
            settings, self.told = self.clock.settings(self.known)
            commands += [settings] if settings else []
            self.is_new = False
        if name == b"genmove" and TIME_LEFT in (self.known or ()):
            colour = b"".join(words[1:2]).decode("latin-1")
            commands.append(f"{TIME_LEFT} {colour} {self.clock.time_left(self.told)}")
        return [command.encode("latin-1") for command in commands]

    def take_answer(self, name: bytes, text: bytes) -> None:
        """Takes the answer to one of these commands; an empty one where it failed."""
        if name == LIST:
            self.known = frozenset(text.decode("latin-1").split())

    def seconds_left(self) -> float:
        """Returns how many seconds the next move may take."""
        return self.clock.seconds_left() + self.margin

    def charge(self, seconds: float, is_move: bool) -> None:
        """Charges what an answer took, or an engine that ended. An answer that is there at the last
        look is in time."""
        used = max(0.0, round(round(seconds, 3) - self.margin, 3))  # as the notes have it
        self.clock.charge(min(used, self.clock.seconds_left()))
        if is_move:
            self.clock.end_move()

    def charge_notes(self, lines: Iterable[str], colour: str) -> None:
        """Charges what an engine of this colour used in earlier starts, by the notes of the
        game."""
        for line in lines:
            words = line.split(" ")
            if words[1:2] != [colour] or len(words) < 4 or words[0] in ("", "0"):
                continue
            event, seconds = words[2], words[3].rstrip(":")
            if event in OTHER_EVENTS or not seconds.replace(".", "", 1).isdigit():
                continue  # among them moves of an opening
            if event != "ended":
                self.charge(float(seconds), is_move=event not in NO_MOVE)
            elif "genmove" in words[4:6]:  # with or without a number
                self.charge(float(seconds), is_move=False)
