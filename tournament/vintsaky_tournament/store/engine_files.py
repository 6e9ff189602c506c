"""The files of which an engine's command consists on a machine: FOLDER/tried/HOST/files.

Each line is `ENGINE<tab>SIZE<tab>TIME<tab>SHA256<tab>GAME<tab>FILE`, TIME in nanoseconds: the file
was so before that game, in which no side was abandoned. A later line of the same engine and file
says that it was changed, or replaced if the sum differs. Of a file that the engine itself writes,
such as a log, a line has `written` for the sum and no game.
"""
from __future__ import annotations

import contextlib
import os
import time
from typing import Iterator, NamedTuple, Sequence

from .. import output
from .notes import TIME, read

NAME = "files"
BY_ENGINE = "written"  # for a sum: the engine itself writes the file


class Seen(NamedTuple):
    """A file of an engine, as it was before a game."""

    engine: str
    size: str
    time: str
    digest: str
    game: str
    path: str

    @property
    def is_by_engine(self) -> bool:
        """Returns whether the engine itself writes the file."""
        return self.digest == BY_ENGINE

    def is_same(self, other: Seen) -> bool:
        """Returns whether another line says the same of the file."""
        mine, others = (self.size, self.time, self.digest), (other.size, other.time, other.digest)
        return mine == others

    def is_like(self, found: os.stat_result) -> bool:
        """Returns whether the file is unchanged, by what the system says of it now."""
        return self.size == str(found.st_size) and self.time == str(found.st_mtime_ns)


class Replaced(NamedTuple):
    """A file of an engine that was replaced on a machine: another one played a game, and what began
    after it. The games that have a result of the one before; None where these aren't known."""

    engine: str
    path: str
    host: str
    game: str
    games: Sequence[str] | None = None

    @property
    def text(self) -> str:
        """Returns what is to be said of it."""
        where = f"{self.path} was replaced on {self.host}"
        text = f"{where}: another one played {self.game} and what began later"
        if self.games:
            count = f"{len(self.games)} game{'s' if len(self.games) > 1 else ''}"
            text += f"; tournament list --replaced names {count} of the one before"
        return text


def seen_in(place: str) -> Iterator[Seen]:
    """Yields what the folder of a machine has of files."""
    try:
        with open(f"{place}/{NAME}", "rb") as file:
            lines = os.fsdecode(file.read()).split("\n")
    except OSError:
        return
    for line in lines[:-1]:
        parts = line.split("\t")
        if len(parts) == len(Seen._fields):
            yield Seen(*parts)


def add(place: str, seen: Seen) -> None:
    """Writes down how a file is, into the folder of a machine."""
    os.makedirs(place, exist_ok=True)
    file = os.open(f"{place}/{NAME}", os.O_WRONLY | os.O_APPEND | os.O_CREAT, 0o666)
    try:
        output.write(file, "\t".join(seen) + "\n")
    finally:
        os.close(file)


class Played(NamedTuple):
    """When a game was played: when it began, and when its result was written. It is compared with
    others by that."""

    began: str  # in UTC, to a second
    written: int  # nanoseconds


def replaced_in(folder: str) -> list[Replaced]:
    """Returns the files that were replaced in a tournament, by machine, and in the order in which
    that was seen. Those aren't among them of which no result is left but those of the file that
    plays now."""
    found: list[Replaced] = []
    tried = f"{folder}/tried"
    hosts = sorted(os.listdir(tried)) if os.path.isdir(tried) else []
    for host in hosts:
        versions: dict[tuple[str, str], list[Seen]] = {}  # by the engine and the path
        for seen in seen_in(f"{tried}/{host}"):
            known = versions.setdefault((seen.engine, seen.path), [])
            if not seen.is_by_engine and (not known or known[-1].digest != seen.digest):
                known.append(seen)
        for known in versions.values():
            if len(known) > 1:
                played = played_on(folder, host, known[0].engine, is_only=len(hosts) == 1)
                found += replaced_by(known, host, played)
    return found


def replaced_by(known: list[Seen], host: str, played: dict[str, Played]) -> Iterator[Replaced]:
    """Yields how a file was replaced, by its versions and when the games of its engine were
    played."""
    begins = [played.get(seen.game) for seen in known]
    for at, seen in enumerate(known[1:], 1):
        before, begin, games = begins[at - 1], begins[at], None
        if begin and (before or at == 1):
            earliest = before if before and at > 1 else Played("", 0)
            games = [name for name, when in played.items() if earliest <= when < begin]
        if known[at - 1].digest == known[-1].digest:
            games = []  # that one plays now
        if games != []:
            yield Replaced(seen.engine, seen.path, host, seen.game, games)


def played_on(folder: str, host: str, engine: str, is_only: bool) -> dict[str, Played]:
    """Returns when the games of an engine were played that have a result from this machine. If it
    is the only one, those without notes are from it."""
    found = {}
    for name in sorted(os.listdir(f"{folder}/games")):
        if engine in name.split("_")[1:]:
            with contextlib.suppress(OSError):
                written = os.stat(f"{folder}/games/{name}").st_mtime_ns
                began, place = time.strftime(TIME, time.gmtime(written / 1e9)), host
                if noted := read(f"{folder}/notes/{name}"):
                    began, place = noted.date or began, noted.host
                if place == host and (noted or is_only):
                    found[name] = Played(began, written)
    return found
