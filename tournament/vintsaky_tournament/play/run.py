"""A run: it begins games, each in a process of its own, waits for their ends, and ends what is left
of them where it is stopped."""
from __future__ import annotations

import os
import signal
import time
from typing import NamedTuple

from .. import output, processes
from ..model import GameId, Outcome, Plan, Result
from ..store.layout import InTheWay, Places
from . import process_tree
from .engine_files import EngineFiles
from .game import ENDING, SAME, play_here, report
from .match import Match


FULL_IN_A_ROW = 10  # games that find the disk full, after which the run ends


class Playing(NamedTuple):
    """A game that is played now."""

    name: str
    places: Places
    lock: int
    old: int | None  # the inode of the result that is to be replaced
    slot: int


class Finished(NamedTuple):
    """A game that has ended."""

    name: str
    outcome: Outcome
    result: Result | None


class Run:
    """The games that are played now."""

    def __init__(self, plan: Plan, folder: str, twogtp: str) -> None:
        self.folder, self.at, self.match = folder, os.path.abspath(folder), Match(plan, twogtp)
        self.files = EngineFiles(self.match, self.at)
        self.playing: dict[int, Playing] = {}  # by the process of each game
        self.tree = process_tree.ProcessTree()
        self.others: set[int] = set()  # processes besides those of games, which run on
        self.stopped: int | None = None  # the signal that stopped it
        self.pinned: list[list[int]] = []  # the processors of each slot; all have all if it's empty
        self.full_in_a_row = 0  # games that found the disk full
        self.no_space = False  # whether nothing can be written
        self.has_all = False  # whether the games in play were asked to end, since all is known
        # without those that nohup, for example, ignores
        self.ending = [number for number in ENDING if signal.getsignal(number) != signal.SIG_IGN]
        process_tree.leave_children(self.ending)
        process_tree.adopt_orphans()
        processes.set_process_name("tournament")
        signal.pthread_sigmask(signal.SIG_BLOCK, [signal.SIGCHLD, *self.ending])

    # ---- results

    def read(self, places: Places, old: int | None = None) -> Result | None:
        """Returns a game's result, or None where it is damaged. Raises FileNotFoundError where
        there is none but the old one, which is to be replaced."""
        if old is not None and os.stat(places.result).st_ino == old:
            raise FileNotFoundError
        return self.match.rule.read(places.result)

    def result(self, places: Places, old: int | None) -> Result | None:
        """Returns a game's result, if it has one. A damaged one is reported, and so is one that
        can't be read. Raises InTheWay where another one can't be put in its place."""
        try:
            result, reason = self.read(places, old), "is damaged"
        except FileNotFoundError:
            return None
        except OSError as error:
            if error.errno in output.TOO_MANY_GAMES:
                raise
            result, reason = None, f"can't be read: {error.strerror}"
            if not places.is_replaceable():
                text = f"{places.result} can't be read, nor be replaced: {error.strerror}"
                raise InTheWay(text) from None
        if result is None:
            output.report(f"{places.name}: its file {reason}, and it is played again")
        return result

    def whole(self, places: Places, old: int | None = None) -> Result | None:
        """Returns a game's whole result, if it has one. Nothing is reported."""
        try:
            return self.read(places, old)
        except OSError:
            return None

    def has_result(self, name: str) -> bool:
        """Returns whether a game has a whole result."""
        return self.whole(Places(self.at, name)) is not None

    # ---- the beginning of a game

    def begin(self, name: str, old: int | None = None) -> Result | None:
        """Begins a game, whose old result stays until there is a new one: its inode is given.

        Returns the game's result where it has one by now. Raises Taken where another process plays
        it, InTheWay where it can have no result, and OSError where no game can be begun.
        """
        places = Places(self.at, name)
        places.has_old = old is not None
        # where another process has ended it, and is about to remove its folder, no lock is made
        if not os.path.lexists(places.lock) and (result := self.whole(places, old)):
            return result
        lock, is_passed_on = places.take(), False
        try:
            places.follow()
            result = self.result(places, old)
            if result:
                places.remove()
                return result
            self.match.prepare()
            self.files.look(name, GameId.parse(name).engines)
            own, slot = os.getpid(), self.free_slot()
            process = os.fork()
            if not process:
                self.close_locks()
                self.match.slot = slot
                processors = self.pinned[slot % len(self.pinned)] if self.pinned else ()
                play_here(name, places, self.match, own, processors)
            self.tree.awaited.add(process)
            self.playing[process] = Playing(name, places, lock, old, slot)
            is_passed_on = True
        except InTheWay:
            places.remove()
            raise
        finally:
            if not is_passed_on:
                os.close(lock)
        return None

    def free_slot(self) -> int:
        """Returns the lowest number that no game has which is played now."""
        taken = {game.slot for game in self.playing.values()}
        return next(slot for slot in range(len(taken) + 1) if slot not in taken)

    def pin(self, jobs: int) -> None:
        """Gives each slot its own processors, where so many games are played at once. If there are
        fewer processors, some share one."""
        all_of = sorted(os.sched_getaffinity(0))
        count = min(jobs, len(all_of))
        ends = [len(all_of) * slot // count for slot in range(count + 1)]
        self.pinned = [all_of[begin:end] for begin, end in zip(ends, ends[1:])]

    def close_locks(self) -> None:
        """Closes the locks of the other games, in the process of one."""
        for game in self.playing.values():
            os.close(game.lock)

    # ---- the end of the run

    def end_if_full(self) -> None:
        """Ends the run where nothing can be written. A game may have filled the disk alone, and
        what it wrote is gone by now; but not many of them in a row."""
        is_full = output.write_error(f"{self.folder}/running") is not None
        if is_full or self.full_in_a_row >= FULL_IN_A_ROW:
            self.end_without_space()

    def end_without_space(self, cause: OSError | None = None) -> None:
        """Asks all games to end, since nothing can be written or begun, and says what to do."""
        if not self.no_space and not self.stopped:
            error = output.write_error(f"{self.folder}/running")
            if error is None and cause is not None and cause.errno not in output.FULL:
                text = f"no other game can be played in {self.folder} either"
            elif error is None or error.errno in output.FULL:
                reason = error.strerror if error else "is the disk full?"
                advice = "make room there, and the same command goes on"
                text = f"{self.folder} can't be written to: {reason}: {advice}"
            else:
                text = f"{self.folder} can't be written to: {error.strerror}"
            output.report(text)
        self.no_space = True
        self.stop()

    def stop(self, number: int | None = None) -> None:
        """Asks all games to end, because of this signal."""
        self.stopped = self.stopped or number
        process_tree.send(signal.SIGTERM, self.playing)

    def end_games(self) -> None:
        """Asks all games to end, once, since their results aren't needed."""
        if not self.has_all and self.playing:
            self.has_all = True
            process_tree.send(signal.SIGTERM, self.playing)

    def is_ending(self, seconds: float = 0) -> bool:
        """Returns whether all games were asked to end, or are in so many seconds, as where all
        processes get a signal."""
        until = time.monotonic() + seconds
        while not self.is_asked_to_end() and time.monotonic() < until:
            self.wait_for_signal(until - time.monotonic())
        return self.is_asked_to_end()

    def is_asked_to_end(self) -> bool:
        """Returns whether all games were asked to end."""
        return self.stopped is not None or self.no_space or self.has_all

    def stop_status(self) -> int:
        """Returns the status of a run that was stopped."""
        number = self.stopped if self.stopped in (signal.SIGINT, signal.SIGPIPE) else signal.SIGTERM
        return 128 + (number or signal.SIGTERM)

    # ---- the ends of games

    def wait_for_signal(self, seconds: float | None = None) -> None:
        """Waits for a signal, so many seconds at most, and reaps what has ended."""
        signals = [signal.SIGCHLD, *self.ending]
        received = (
            signal.sigwaitinfo(signals)
            if seconds is None
            else signal.sigtimedwait(signals, seconds)
        )
        if received and received.si_signo != signal.SIGCHLD:
            self.stop(received.si_signo)
        self.tree.reap()

    def wait(self, seconds: float | None = None) -> list[Finished]:
        """Waits for a signal, and returns each game that has ended since."""
        self.has_others()
        if not self.tree.ended:
            self.wait_for_signal(seconds)
        ended = [process for process in self.playing if process in self.tree.ended]
        return [self.finish(process) for process in ended]

    def has_others(self) -> bool:
        """Returns whether there are processes besides those of games."""
        self.tree.reap()
        for process in self.others.intersection(self.tree.ended):
            self.others.remove(process)
            del self.tree.ended[process]
        return bool(self.others)

    def finish(self, process: int) -> Finished:
        """Returns the game of a process that has ended.

        Where that was killed or broke, what it left is ended. One that was asked to end, and not by
        this run, is reported: else nobody would know why it has no result.
        """
        game = self.playing.pop(process)
        status = self.tree.ended.pop(process)
        outcome = Outcome(status) if 0 <= status < len(Outcome) else Outcome.BROKEN
        is_broken = outcome is Outcome.BROKEN
        if is_broken:
            self.tree.end({*self.playing, *self.others})
        result = self.whole(game.places, game.old)
        self.files.end(game.name, result)
        if is_broken or outcome is Outcome.STOPPED:
            if status < 0 and not result and not self.is_ending():
                report(game.name, game.places, f"its process was ended by signal {-status}")
            elif outcome is Outcome.STOPPED and not self.is_ending(SAME):
                reason = "its process was asked to end, and not by this run"
                report(game.name, game.places, reason)
                outcome = Outcome.NO_RESULT
            game.places.remove()
        os.close(game.lock)
        self.full_in_a_row = self.full_in_a_row + 1 if outcome is Outcome.NO_SPACE else 0
        if self.full_in_a_row:
            self.end_if_full()
        return Finished(game.name, Outcome.RESULT if result else outcome, result)
