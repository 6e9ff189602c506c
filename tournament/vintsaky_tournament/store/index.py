"""The index, FOLDER/index/HOST: a cache of what tallies and exports need of each game.

The process of a game adds a line to the file of its machine, once the result is in its place. The
parts of a line have tabs between them: see `Line`.

Results that are read by an index are those of the files. A line counts only as long as the result
has its size, time and inode, and what it says of the notes as long as these have theirs; all else
is read from the files. So a line is ignored that is torn, or of another plan, or whose game was
changed, removed or played again. The folder may be removed at any time, and needn't be writable.
Which games are played follows from the results alone.
"""
from __future__ import annotations

import contextlib
import os
from typing import NamedTuple
from zlib import crc32

from .. import output
from ..model import Plan, Result
from .notes import Noted, Notes, Thought
from .results import Rule

SUM = 8  # the digits of a sum
SECONDS = 6  # how many numbers of the notes are seconds, before those that are counts
NOTHING = ""  # by which notes are known that aren't there


class Line(NamedTuple):
    """A line of an index."""

    sum: str  # of all that follows it
    game: str
    rule: str  # what a result is by the plan
    result_file: str  # by what the file of the result is known again
    notes_file: str
    result: str
    moves: str
    host: str
    date: str
    numbers: str  # of the notes


def mark_of(found: os.stat_result) -> str:
    """Returns by what a file is known again: its size, the time of its last change, its inode."""
    return f"{found.st_size} {found.st_mtime_ns} {found.st_ino}"


def add(
    folder: str,
    game: str,
    rule: Rule,
    result: tuple[os.stat_result, Result],
    notes: tuple[os.stat_result, Notes] | None,
) -> None:
    """Adds the line of a game, with what its files were when they were read. Nothing is said where
    it can't be written."""
    file, found = result
    parts = [game, rule.mark, mark_of(file), NOTHING, found.line, found.vertices, "", "", ""]
    if notes:
        noted = notes[1].noted()
        parts[3], parts[6:] = mark_of(notes[0]), [noted.host, noted.date, numbers_of(noted)]
    text = "\t".join(parts).encode("latin-1")
    with contextlib.suppress(OSError):
        index = opened(f"{folder}/index")
        try:
            output.write_bytes(index, b"%08x\t%b\n" % (crc32(text), text))
        finally:
            os.close(index)


def opened(folder: str) -> int:
    """Opens the file of this machine, to write at its end, and returns the descriptor."""
    place, flags = f"{folder}/{os.uname().nodename}", os.O_WRONLY | os.O_APPEND | os.O_CREAT
    try:
        return os.open(place, flags, 0o666)
    except FileNotFoundError:
        os.makedirs(folder, exist_ok=True)
        return os.open(place, flags, 0o666)


def numbers_of(noted: Noted) -> str:
    """Returns the numbers of notes as a line has them: Black's and White's of each kind."""
    return " ".join(str(number) for both in noted[2:] for number in both)


def noted_of(line: Line) -> Noted:
    """Returns what a line says of the notes."""
    words = line.numbers.split(" ")
    seconds, counts = map(float, words[:SECONDS]), map(int, words[SECONDS:])
    thought, moved, longest = zip(seconds, seconds)
    moves, late, out_of_time, ignored = zip(counts, counts)
    times = (thought, moved, longest)
    return Noted(line.host, line.date, *times, moves, late, out_of_time, ignored)


class Index:
    """The lines of a folder's index, for those who read its results."""

    def __init__(self, plan: Plan, folder: str) -> None:
        self.folder, self.rule = folder, Rule(plan).mark
        self.lines: dict[bytes, bytes] = {}  # by the game
        self.latest: Line | None = None  # of the game that was found last
        names: list[str] = []
        with contextlib.suppress(OSError):
            names = sorted(os.listdir(f"{folder}/index"))
        for name in names:
            with contextlib.suppress(OSError):
                self.read(f"{folder}/index/{name}")

    def read(self, place: str) -> None:
        """Reads a file of the index, of which the last line of a game counts."""
        with open(place, "rb") as file:
            for line in file:
                self.lines[line[SUM + 1 : line.find(b"\t", SUM + 1)]] = line[:-1]

    def result(self, game: str) -> Result | None:
        """Returns the result of a game; None where its file is to be read."""
        self.latest = None
        line = whole(self.lines.get(game.encode(), b""))
        place = f"{self.folder}/games/{game}"
        if line is None or line.rule != self.rule or not is_like(place, line.result_file):
            return None
        self.latest = line
        verdict, _, length, _, black, white = line.result.rsplit(" ", 5)
        return Result(line.result, verdict, int(length), (int(black), int(white)), line.moves)

    def noted(self, game: str) -> Noted | None:
        """Returns what the notes of a game say, whose result was found last; None where they are to
        be read."""
        line = self.with_notes(game)
        return noted_of(line) if line else None

    def thought(self, game: str) -> Thought | None:
        """Returns less of the same, which is all that exports need, and there sooner."""
        line = self.with_notes(game)
        if line is None:
            return None
        black, white, _ = line.numbers.split(" ", 2)
        return Thought(line.host, line.date, (float(black), float(white)))

    def with_notes(self, game: str) -> Line | None:
        """Returns the line of the game whose result was found last, if its notes are as they were
        when they were read."""
        line = self.latest
        if line is None or line.notes_file == NOTHING:
            return None
        return line if is_like(f"{self.folder}/notes/{game}", line.notes_file) else None

    def forget(self) -> None:
        """Forgets all lines, which take as much room as the results."""
        self.lines.clear()


def whole(line: bytes) -> Line | None:
    """Returns the parts of a line; None where it is torn."""
    if line[:SUM] != b"%08x" % crc32(line[SUM + 1 :]):
        return None
    parts = line.decode("latin-1").split("\t")
    return Line(*parts) if len(parts) == len(Line._fields) else None


def is_like(place: str, mark: str) -> bool:
    """Returns whether there is a file in this place that is known by this mark."""
    try:
        return mark_of(os.stat(place)) == mark
    except OSError:
        return False
