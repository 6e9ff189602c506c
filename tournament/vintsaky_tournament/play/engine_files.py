"""Looks before each game whether the files of both engines are those of the games before."""
from __future__ import annotations

import contextlib
import os
import signal
from typing import Iterator

from .. import output
from ..model import Result
from ..store.engine_files import BY_ENGINE, Replaced, Seen, add, seen_in
from . import programs
from .game import ENDING
from .match import Match

CHUNK = 1 << 20


class EngineFiles:
    """The files of the engines, which are the words of their commands that name one."""

    def __init__(self, match: Match, folder: str) -> None:
        self.match, self.host = match, os.uname().nodename
        self.place = f"{folder}/tried/{self.host}"
        self.of_engine: dict[str, list[str]] = {}  # the paths of each engine's files
        # of each engine, by path: what is written down, and what was seen last
        self.written: dict[str, dict[str, Seen]] = {}
        self.latest: dict[str, dict[str, Seen]] = {}
        self.playing: dict[str, list[Seen]] = {}  # what a game is played by that isn't written down

    def look(self, game: str, engines: tuple[str, str]) -> None:
        """Looks at the files of both engines before a game. One is reported that was replaced."""
        self.playing[game] = []
        for engine in engines:
            if engine not in self.of_engine:
                self.read(engine)
                paths = self.files_of(engine)
                own = {path for path, seen in self.written[engine].items() if seen.is_by_engine}
                self.of_engine[engine] = [path for path in paths if path not in own]
                self.latest[engine] = dict(self.written[engine])
            for path in self.of_engine[engine]:
                with contextlib.suppress(OSError):
                    self.look_at(game, engine, path)

    def files_of(self, engine: str) -> Iterator[str]:
        """Yields the paths of an engine's files. A path that has the seed isn't among them."""
        command, folder = self.match.commands[engine], self.match.folder
        started = [programs.find(word, folder) or "" for word in programs_of(command)]
        others = command[1:]
        words = [*started, *others, *(word.partition("=")[2] for word in others)]
        for word in dict.fromkeys(words):
            path = os.path.join(folder, word).replace("/./", "/")
            if word and "%s" not in word and "\t" not in path and os.path.isfile(path):
                yield path

    def states_of(self, engine: str) -> dict[str, os.stat_result]:
        """Returns how an engine's files are now, by path."""
        states = {}
        for path in self.files_of(engine):
            with contextlib.suppress(OSError):
                states[path] = os.stat(path)
        return states

    def note_written(self, engine: str, before: dict[str, os.stat_result]) -> None:
        """Writes down which files have changed since an engine's trial began: it writes them
        itself, as a log, so they are no part of it."""
        for path, found in self.states_of(engine).items():
            seen = Seen(engine, str(found.st_size), str(found.st_mtime_ns), BY_ENGINE, "", path)
            if path not in before or not seen.is_like(before[path]):
                with contextlib.suppress(OSError):
                    add(self.place, seen)

    def read(self, engine: str) -> None:
        """Reads what is written down of an engine's files by games on this machine."""
        known = {seen.path: seen for seen in seen_in(self.place) if seen.engine == engine}
        self.written[engine] = known

    def look_at(self, game: str, engine: str, path: str) -> None:
        """Looks at a file before a game."""
        found, seen = os.stat(path), self.latest[engine].get(path)
        written = self.written[engine].get(path)
        if not seen or not seen.is_like(found):
            digest = digest_of(path)
            if digest is None:
                return
            seen = Seen(engine, str(found.st_size), str(found.st_mtime_ns), digest, game, path)
            self.latest[engine][path] = seen
            if written and written.digest != digest:
                output.report(f"{engine}: {Replaced(engine, path, self.host, game).text}")
        if seen is not written:
            self.playing[game].append(seen)

    def end(self, game: str, result: Result | None) -> None:
        """Writes down the files of a game that has ended with this result. An engine that wasn't
        started, or was abandoned, is repaired without a word."""
        playing = self.playing.pop(game, [])
        for seen in playing if result and not result.is_lost() else ():
            if self.latest[seen.engine][seen.path] is not seen:
                continue  # it was replaced again meanwhile
            self.read(seen.engine)  # another run may have written meanwhile
            written = self.written[seen.engine]
            before = written.get(seen.path)
            if before is None or not before.is_same(seen):
                with contextlib.suppress(OSError):
                    add(self.place, seen)
            written[seen.path] = seen


def programs_of(command: list[str]) -> list[str]:
    """Returns the words that name a program: the first one, and behind `env`, which a plan in a
    file puts before the command of an engine with an environment, the one that env starts."""
    behind = [word for word in command[1:] if "=" not in word and not word.startswith("-")]
    words = [*command[:1], *(behind[:1] if command[0] == "env" else ())]
    return [word for word in words if "%s" not in word]


def digest_of(path: str) -> str | None:
    """Returns the sum of a file; None where the run is asked to end meanwhile."""
    import hashlib  # which takes a while

    digest = hashlib.sha256()
    with open(path, "rb") as file:
        while chunk := file.read(CHUNK):
            digest.update(chunk)
            if signal.sigpending().intersection(ENDING):
                return None
    return digest.hexdigest()
