"""Reads the notes of a game, and runs `between` alone, which writes them."""
from __future__ import annotations

import re
import subprocess
import sys
from typing import List

from .runner import SCRIPTS, Done, Runner

BETWEEN = [sys.executable, "-S", "-E", str(SCRIPTS / "between"), "black"]  # as it is started


def without_seconds(line: str) -> str:
    """Returns a line of notes with S for its seconds, and without those of processors."""
    line = re.sub(r"( cpu \d+\.\d\d|; cpu \d+\.\d\d, \d+\.\d\d)(?=:|$)", "", line)
    return re.sub(r"(?<= )\d+\.\d{3}(?=[:,]* |[:,]*$)", "S", line)


def notes_of(runner: Runner, game: str, folder: str = "all") -> List[str]:
    """Returns the lines of the notes of a game, without when it began."""
    lines = (runner.folder / folder / "notes" / game).read_text().splitlines()
    return [line for line in lines if not line.startswith("began ")]


def record_of(notes: List[str]) -> List[str]:
    """Returns the moves that the notes of a game have, without those that were taken back."""
    moves: List[str] = []
    for line in notes:
        move = r"(\d+) (black|white) ([A-Z]\d+|pass|undone)( \d+\.\d{3}( cpu \d+\.\d\d)?| opening)?"
        if found := re.fullmatch(move, line):
            number = int(found[1]) - 1
            moves[number:] = [] if found[3] == "undone" else [found[3]]
    return moves


class Between:
    """The script `between`, for Black's engine with this command, outside a tournament."""

    def __init__(self, runner: Runner, *command: object, **more: object) -> None:
        self.runner = runner
        self.place = runner.write("notes", "a game\n")
        lines = [f"notes {self.place}", f"folder {runner.folder}"]
        lines += [f"black {word}" for word in command]
        lines += [f"{name.replace('_', '-')} {value}" for name, value in more.items()]
        runner.environment["TOURNAMENT_GAME"] = str(runner.write("game", "\0".join(lines)))

    def start(self) -> subprocess.Popen[str]:
        """Starts it with an input that is written to."""
        return self.runner.start(*BETWEEN, stdin=subprocess.PIPE)

    def run(self, text: str) -> Done:
        """Returns what comes of it with this input, which doesn't end before it does."""
        process = self.start()
        assert process.stdin and process.stdout and process.stderr
        try:
            process.stdin.write(text)
            process.stdin.flush()
        except BrokenPipeError:  # what starts no engine may have ended before
            pass
        output, errors = process.stdout.read(), process.stderr.read()
        return Done(process.wait(), output, errors)

    def notes(self) -> List[str]:
        """Returns the notes without their first line, with S for seconds."""
        return [without_seconds(line) for line in self.place.read_text().splitlines()[1:]]
