"""The places of a game, and its lock.

FOLDER/running/GAME/lock is locked (`flock`) by the process that plays a game. Next to it `result`
and `log` are written, which become FOLDER/games/GAME and FOLDER/logs/GAME; then that folder is
removed, under the lock. FOLDER/notes/GAME is written in its place, so that it is there also of a
game that is killed.

Where the game has an old result, that stays with its notes and its log until there is a new one:
the new notes are written next to the lock, too. Then the result is moved first, and its notes and
log after it. Where the process is killed between, a reader of the notes also finds them next to the
lock, and the next run moves them.
"""
from __future__ import annotations

import contextlib
import fcntl
import os
import time

from .. import output
from . import results

CHUNK = 65536
TRIES = 100  # to make a file in a folder that others remove


def make_folders(folder: str) -> None:
    """Makes the folders of a tournament that aren't there."""
    for name in ("games", "logs", "notes", "running"):
        os.makedirs(f"{folder}/{name}", exist_ok=True)


class Taken(Exception):
    """Another process plays the game."""


class InTheWay(Exception):
    """Something lies where the result of a game belongs, which can be neither read nor replaced."""

    def __init__(self, text: str) -> None:
        super().__init__(text)
        self.text = text


class Places:
    """Where the files of a game lie."""

    def __init__(self, folder: str, name: str) -> None:
        self.folder, self.name, self.at = folder, name, f"{folder}/running/{name}"
        self.result, self.log = f"{folder}/games/{name}", f"{folder}/logs/{name}"
        self.notes = f"{folder}/notes/{name}"
        self.new_result, self.new_log = f"{self.at}/result", f"{self.at}/log"
        self.lock = f"{self.at}/lock"
        # whether the game is played again, whose old result stays until there is a new one; of such
        # a game there are these notes, and this log once it has ended
        self.has_old = False
        self.again_notes, self.again_log = f"{self.at}/notes", f"{self.at}/log.whole"

    def take(self) -> int:
        """Takes the lock, which is made where there is none, and returns its descriptor. Raises
        Taken where another process has it."""
        for _ in range(TRIES):
            try:
                with contextlib.suppress(FileExistsError):
                    os.mkdir(self.at)
                lock = self.take_file(os.O_CREAT)
            except FileNotFoundError:  # of another process, which has removed the folder
                if not os.path.isdir(os.path.dirname(self.at)):
                    raise
                continue
            if lock is not None:
                return lock
        raise Taken

    def take_file(self, flags: int = 0) -> int | None:
        """Takes the lock in its file, and returns its descriptor; None where that was removed
        meanwhile."""
        lock = os.open(self.lock, os.O_WRONLY | os.O_APPEND | flags, 0o666)
        try:
            fcntl.flock(lock, fcntl.LOCK_EX | fcntl.LOCK_NB)
        except OSError as error:
            os.close(lock)
            if isinstance(error, BlockingIOError):
                raise Taken from None
            reason = f"{error.strerror}: the directory has to be on a file system with locks"
            raise OSError(error.errno, reason, self.lock) from None
        if is_file(lock, self.lock):
            return lock
        os.close(lock)
        return None

    def new_files(self) -> tuple[int, int]:
        """Makes the files of the result and of the log, and returns their descriptors."""
        return new_file(self.new_result), new_file(self.new_log)

    def new_notes(self) -> tuple[int, str]:
        """Makes the file of the notes, and its folder where somebody removed that. Returns the
        descriptor, and the place."""
        if self.has_old:
            return new_file(self.again_notes), self.again_notes
        try:
            return new_file(self.notes), self.notes
        except FileNotFoundError:
            with contextlib.suppress(FileExistsError):
                os.mkdir(os.path.dirname(self.notes))
            return new_file(self.notes), self.notes

    def is_replaceable(self) -> bool:
        """Returns whether another file can be moved to the place of the result."""
        is_folder = os.path.isdir(self.result) and not os.path.islink(self.result)
        return not is_folder and os.access(os.path.dirname(self.result), os.W_OK | os.X_OK)

    def put(self) -> None:
        """Moves the new result to its place, and its log. Those of an old one stay until the result
        is there, and `follow` is called."""
        if self.has_old:
            os.rename(self.new_log, self.again_log)
        else:
            self.keep_log(self.new_log)
        os.rename(self.new_result, self.result)

    def follow(self) -> None:
        """Moves the notes and the log of a game that was played again to their places, where its
        result is in its own by now. Else they are those of a game that was killed before."""
        if os.path.exists(self.new_result):
            for place in (self.again_notes, self.again_log):
                with contextlib.suppress(OSError):
                    os.unlink(place)
            return
        with contextlib.suppress(OSError):
            if notes_are_of(self.again_notes, self.result):
                os.makedirs(os.path.dirname(self.notes), exist_ok=True)
                os.rename(self.again_notes, self.notes)
        with contextlib.suppress(OSError):
            self.keep_log(self.again_log)

    def keep_log(self, place: str) -> None:
        """Keeps what was written on standard error, if anything was, which is in this place."""
        if os.stat(place).st_size:
            os.rename(place, self.log)
        else:
            with contextlib.suppress(FileNotFoundError):
                os.unlink(self.log)

    def add_to_log(self, line: str) -> None:
        """Keeps what was written on standard error, with a last line: of a game with an old result
        below the log of that."""
        with open(self.new_log, "ab") as file:
            file.write(os.fsencode(f"tournament: {line}\n"))
        if self.has_old:
            self.append_log()
        else:
            self.keep_log(self.new_log)

    def append_log(self) -> None:
        """Adds the new log to the old one, below a line that says when; nothing where all of it
        can't be written."""
        with open(self.log, "ab", buffering=0) as old, open(self.new_log, "rb") as new:
            before = old.seek(0, os.SEEK_END)
            now = time.strftime("%Y-%m-%d %H:%M:%S")
            try:
                output.write(old.fileno(), f"tournament: played again until {now}:\n")
                while chunk := new.read(CHUNK):
                    output.write_bytes(old.fileno(), chunk)
            except OSError:
                os.ftruncate(old.fileno(), before)
                raise

    def remove(self) -> None:
        """Removes what lies next to the lock, the lock, and the folder. Only the process that has
        the lock may do so."""
        self.empty()
        with contextlib.suppress(OSError):
            os.unlink(self.lock)
        with contextlib.suppress(OSError):
            os.rmdir(self.at)

    def empty(self) -> None:
        """Removes what lies next to the lock. Only the process that has the lock may do so."""
        self.follow()
        names: list[str] = []
        with contextlib.suppress(OSError):
            names = os.listdir(self.at)
        for name in names:
            if name != "lock":
                with contextlib.suppress(OSError):
                    os.unlink(f"{self.at}/{name}")

    def clear(self) -> None:
        """Removes what a game left that was killed, unless a process has its lock.

        A game without a result may begin at this moment: an earlier script makes the folder, opens
        the lock and takes it, and never looks whether it is still there. So both stay until there
        is a result.
        """
        if not os.path.lexists(self.lock):
            self.remove_ended()
            return
        lock = self.take_file()
        if lock is not None:
            (self.remove if os.path.lexists(self.result) else self.empty)()
            os.close(lock)

    def remove_ended(self) -> None:
        """Removes the folder of a game that has a result, where it is empty: the process that plays
        the game may be about to do that, too."""
        if os.path.lexists(self.result):
            with contextlib.suppress(OSError):
                os.rmdir(self.at)


def new_file(place: str) -> int:
    """Makes a file, in place of one that is there, and returns its descriptor. All is written at
    its end."""
    with contextlib.suppress(FileNotFoundError):
        os.unlink(place)
    return os.open(place, os.O_RDWR | os.O_CREAT | os.O_EXCL | os.O_APPEND, 0o666)


def notes_are_of(notes: str, result: str) -> bool:
    """Returns whether these notes end with the line of this result."""
    line = results.bytes_of(result).partition(b"\n")[0]
    return results.bytes_of(notes).endswith(b"\nresult: %b\n" % line[8:])


def is_file(descriptor: int, place: str) -> bool:
    """Returns whether the file of this descriptor lies in this place."""
    try:
        there = os.stat(place)
    except FileNotFoundError:
        return False
    return os.path.samestat(there, os.fstat(descriptor))


def clear_running(folder: str) -> None:
    """Removes what games left that were killed."""
    with contextlib.suppress(FileNotFoundError), os.scandir(f"{folder}/running") as found:
        for name in [entry.name for entry in found if entry.is_dir()]:
            with contextlib.suppress(Taken, FileNotFoundError):
                Places(folder, name).clear()
