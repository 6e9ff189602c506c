"""An engine to which a game is sent that was played."""
from __future__ import annotations

import contextlib
import os
import signal
from typing import Sequence

from ..config.rules import as_vertex, column_and_row, handicap_points
from ..config.setup import Setup
from ..model import COLOURS, Result
from ..play.trial import Asked, Failed, Refusal

PASS = "pass"


def is_over(vertices: Sequence[str]) -> bool:
    """Returns whether these moves end with the two passes that end a game."""
    return vertices[-2:] == [PASS, PASS]


def first_colour(setup: Setup) -> int:
    """Returns which of COLOURS moves first."""
    return 1 if setup.stones() else 0


class Replayer:
    """An engine that is sent one game after the other. Each answer may take so many seconds."""

    def __init__(self, command: list[str], folder: str, log: int, seconds: float) -> None:
        self.engine, self.seconds = Asked(command, folder, log), seconds
        self.number = 0  # of the last command
        if self.engine.failure:
            raise Failed(self.engine.failure)

    def ask(self, command: str) -> str:
        """Asks a command, and returns the text of its answer. Raises Failed where it fails."""
        self.number += 1
        answer = self.engine.ask(self.number, command, self.seconds)
        return answer.decode("latin-1").lstrip("=0123456789").strip()

    def set_up(self, setup: Setup) -> None:
        """Sends the beginning of a game."""
        points = handicap_points(setup.rows(), setup.stones())
        for command in setup.commands()[:-1]:
            answer = self.ask(command)
            if command.startswith("fixed_handicap"):
                found = filter(None, map(as_vertex, answer.split()))
                if sorted(map(column_and_row, found)) != sorted(points):
                    raise Failed(f"it has another handicap: {answer!r}")

    def play(self, setup: Setup, result: Result) -> None:
        """Sends the moves of a game. Raises Failed at one that is refused, or is behind two
        passes."""
        vertices, first = result.vertices.split(), first_colour(setup)
        for at, vertex in enumerate(vertices):
            colour = COLOURS[(first + at) % 2]
            if is_over(vertices[:at]):
                raise Refusal(f"move {at + 1} is behind two passes")
            try:
                self.ask(f"play {colour} {vertex}")
            except Refusal as refusal:
                raise Refusal(f"move {at + 1}: {refusal.text}") from None

    def end(self) -> None:
        """Ends it."""
        with contextlib.suppress(ProcessLookupError):
            os.kill(self.engine.number, signal.SIGKILL)
        with contextlib.suppress(ChildProcessError):
            os.waitpid(self.engine.number, 0)
