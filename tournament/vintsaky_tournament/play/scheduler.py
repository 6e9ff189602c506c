"""Plays all games of a plan that have no result."""
from __future__ import annotations

import contextlib
import os
import signal
import time
from array import array
from collections import Counter
from typing import TYPE_CHECKING, Iterable, Iterator, Sequence

from .. import output
from ..config.changes import Folder
from ..model import GameId, Outcome, Plan, Result, State
from ..output import NoStart
from ..store import results
from ..store.layout import InTheWay, Places, Taken, clear_running, make_folders
from ..store.notes import line_of
from .game import no_result
from .hooks import Hooks
from .known import NO_START, KnownEngines
from .progress import Progress
from .run import Run

if TYPE_CHECKING:
    from ..cluster import Share
    from ..stats.sprt import TestRequest
    from .counted import CountedGames

AGAIN = 3  # seconds for which games are tried that another process holds, which may be about to end
PAUSE = 0.2  # seconds between two such tries
SPARE = 10  # seconds that a game may take besides its limit, and the end of the run
IN_A_ROW = 10  # games in which an engine isn't started, after which the run ends


class Play:
    """All games of a plan that have no result, or those of a share. There may be a time at which it
    ends."""

    def __init__(
        self,
        run: Run,
        plan: Plan,
        jobs: int,
        share: Share | None = None,
        seconds: float | None = None,
        hooks: Hooks | None = None,
    ) -> None:
        self.run, self.plan, self.jobs, self.share = run, plan, jobs, share
        self.until = None if seconds is None else time.monotonic() + seconds
        self.games = plan.games()
        self.own = share.of(self.games.count) if share else range(self.games.count)
        # a damaged file is reported where its game begins
        self.states = results.states_of(plan, run.folder, share=share, is_quiet=True)
        self.count, self.total = self.with_result(), len(self.own)
        self.later = array("Q")  # games that another process plays
        # of a game that is played again: the inode of its old result, until there is a new one
        self.old: dict[int, int] = {}
        self.known = KnownEngines(run, plan)
        self.hooks = hooks or Hooks(run, plan, {}, "")
        self.has_played = False  # whether a game was begun
        self.not_started: Counter[str] = Counter()  # in how many games in a row an engine wasn't
        # whether these were too many, or an engine can't be started at all
        self.is_unable = False
        self.is_written = True  # whether all lines could be written
        # who leads, and a test that ends the run; None until either is asked for
        self.counted_games: CountedGames | None = None
        self.progress = Progress(0, 0)  # which begins once it is known how many are to be played

    # ---- states

    def with_result(self) -> int:
        """Returns how many games have a result."""
        return self.count_of(State.WHOLE) + self.count_of(State.LOST)

    def count_of(self, state: State) -> int:
        """Returns how many games have this state."""
        return self.states[self.own.start :: self.own.step].count(state)

    def missing(self) -> Iterator[int]:
        """Yields the games that have no result."""
        missing = (State.MISSING, State.DAMAGED)
        return (game for game in self.own if self.states[game] in missing)

    def forget_lost(self) -> None:
        """Takes the results of games in which a side was unfit or abandoned for none. Each stays
        until there is a new one."""
        for game in self.own:
            if self.states[game] == State.LOST:
                name = self.games.name(game)
                with contextlib.suppress(FileNotFoundError):
                    self.old[game] = os.stat(Places(self.run.folder, name).result).st_ino
                self.states[game] = State.MISSING
                self.known.again.update(GameId.parse(name).engines)
        self.count = self.with_result()

    def add_result(self, game: int, result: Result) -> None:
        """Counts a game's result."""
        self.states[game] = results.state_of(self.plan, self.run.folder, game, result)
        self.count += 1
        self.old.pop(game, None)
        if self.counted_games:
            self.counted_games.add(game, result)

    def add_failed(self, game: int, reason: str = "") -> None:
        """Counts a game that has no result after its try. The reason is that of its log, unless it
        is given."""
        name = self.games.name(game)
        reason = reason or results.logged_reason(Places(self.run.folder, name).log)
        self.hooks.add_failures({name: reason})
        self.progress.failed += 1
        if self.counted_games:
            self.counted_games.add_failed(game)

    def awaited_of_others(self) -> list[int]:
        """Returns the games for which a test waits and that another process plays: those of other
        shares, too."""
        awaited = self.counted_games.awaited() if self.counted_games else []
        return [game for game in awaited if game in self.later or game not in self.own]

    def add_of_others(self) -> None:
        """Counts what other processes have played meanwhile of the pairs for which a test waits."""
        while any([self.add_of_other(game) for game in self.awaited_of_others()]):
            pass

    def add_of_other(self, game: int) -> bool:
        """Counts a game that another process plays, if that has ended. Returns whether it has."""
        assert self.counted_games
        place = Places(self.run.folder, self.games.name(game))
        # a scorer may be asked until there is no lock any more
        if os.path.lexists(place.lock):
            return False
        result, is_own = self.run.whole(place), game in self.own
        if result and is_own:
            self.later.remove(game)
            self.add_result(game, result)
        elif result:
            self.counted_games.add(game, result)
        elif not is_own and results.logged_reason(place.log):
            self.counted_games.add_failed(game)
        else:
            return False
        return True

    def count_again(self) -> None:
        """Counts the results again: all of them where a game was played, since others may be gone
        by now, except for a run that is stopped."""
        counts_all = self.has_played and not self.run.stopped
        if counts_all or self.count < self.total:
            known = None if counts_all else self.states
            self.states = results.states_of(
                self.plan, self.run.folder, known, self.share, is_quiet=True
            )
            self.count = self.with_result()

    # ---- the end

    def is_over(self) -> bool:
        """Returns whether no other game is to be begun."""
        is_stopped = self.run.stopped is not None or self.run.no_space
        return is_stopped or self.is_unable or self.is_decided() or self.has_no_time()

    def is_decided(self) -> bool:
        """Returns whether the test that ends the run is over."""
        return self.counted_games is not None and self.counted_games.is_over()

    def has_no_time(self) -> bool:
        """Returns whether less time is left than a game may take."""
        if self.until is None:
            return False
        scoring = float(self.plan.start_limit or 0) if self.plan.scorer else 0
        return time.monotonic() + (self.plan.limit or 0) + scoring + SPARE > self.until

    def print(self, line: str) -> None:
        """Writes a line. Where nobody reads it any more the run is stopped, as other programs are.
        Where it can't be written for another reason, the run ends, too."""
        try:
            output.write(output.STDOUT, f"{line}\n")
        except BrokenPipeError:
            self.run.stop(signal.SIGPIPE)
        except OSError as error:
            if self.is_written:
                output.report(
                    f"standard output can't be written to: {error.strerror}: no other game is "
                    "begun here"
                )
            self.is_written, self.run.no_space = False, True
            self.run.stop()

    # ---- games

    def begin(self, game: int) -> bool:
        """Begins a game. Returns False where others have to end first."""
        name = self.games.name(game)
        try:
            result = self.run.begin(name, self.old.get(game))
            self.has_played = self.has_played or not result
            if result:
                self.add_result(game, result)
        except Taken:
            self.later.append(game)
        except InTheWay as problem:
            self.add_failed(game, problem.text)
            output.report(f"{name}: {no_result(game in self.old)}: {problem.text}")
        except OSError as error:
            if error.errno in output.TOO_MANY_GAMES and self.run.playing:
                return False
            reason = output.description(error)
            output.report(f"{name}: {no_result(game in self.old)}: {reason}")
            self.run.end_without_space(error)
        return True

    def wait(self) -> None:
        """Waits until a game has ended, and writes its line; or until it is time to say how far the
        run is."""
        pause = self.progress.pause()
        if self.awaited_of_others():
            pause = min(pause, AGAIN)  # for games of other processes, which wake up nobody
        for name, outcome, result in self.run.wait(pause):
            game, engines = self.games.number(name), GameId.parse(name).engines
            assert game is not None
            if result:
                self.add_result(game, result)
                line = line_of(self.run.folder, name, result)
                self.print(f"{self.count} of {self.total}: {name}: {line}")
                if self.states[game] == State.LOST:
                    self.hooks.add_failures({name: line.partition(" moves ")[0]})
                for engine in engines:
                    self.not_started[engine] = 0
                continue
            side = outcome.not_started
            if outcome is Outcome.TAKEN:
                self.later.append(game)
            elif side is not None:
                self.add_not_started(engines[side])
            if outcome not in (Outcome.TAKEN, Outcome.STOPPED):
                self.add_failed(game)
        self.add_of_others()
        self.progress.lost = self.count_of(State.LOST)
        self.progress.show(self.count)

    def standing(self) -> str:
        """Returns who leads by now, for the line of progress."""
        if self.share:  # whose pairs are in other shares, too
            return self.counted_games.ratios() if self.counted_games else ""
        if not self.counted_games:
            from .counted import CountedGames  # which isn't needed elsewhere

            try:
                self.counted_games = CountedGames(self.plan, self.run.folder, self.old)
            except OSError:
                return ""  # the run ends where that matters
        return self.counted_games.standing()

    def add_not_started(self, engine: str) -> None:
        """Counts that an engine wasn't started in a game. Where these are too many in a row, no
        other game is begun."""
        self.not_started[engine] += 1
        self.known.note_failed(engine)
        if self.not_started[engine] >= IN_A_ROW and not self.is_unable:
            self.is_unable = True
            output.report(
                f"{engine} wasn't started in {IN_A_ROW} games in a row: no other game is begun here"
            )
            self.advise([engine])

    def play_these(self, games: Iterator[int]) -> None:
        """Plays these games, so many at once, until all have ended or the run is stopped."""
        waiting = next(games, None)
        while waiting is not None and not self.is_over() or self.run.playing:
            while waiting is not None and not self.is_over():
                if len(self.run.playing) >= self.jobs or not self.begin(waiting):
                    break
                waiting = next(games, None)
            if self.is_decided():
                self.run.end_games()
            if self.run.playing:
                self.wait()

    def play(self) -> None:
        """Plays all that are missing, once each engine was tried here. Those that another process
        plays are tried again at the end, for some seconds."""
        if self.count < self.total and not self.has_no_time() and not self.is_decided():
            failed = self.try_engines(self.plan.engines)
            if failed:
                self.advise(failed)
        self.progress = Progress(self.count, self.total, self.standing)
        self.play_these(self.missing())
        until = time.monotonic() + AGAIN
        while self.later and not self.is_over() and time.monotonic() < until:
            before, self.later = self.later, array("Q")
            self.play_these(iter(before))
            if len(self.later) < len(before):
                until = time.monotonic() + AGAIN
            elif not self.is_over():
                self.run.wait(PAUSE)
        self.run.tree.end(self.run.others)
        self.count_again()

    def all(self, again: bool, asked: TestRequest | None = None) -> int:
        """Plays all that are missing, and again those in which a side was unfit or abandoned where
        that is asked; or until a test is over. Returns the status."""
        if again:
            self.forget_lost()
        if asked:
            from .counted import CountedGames  # which isn't needed elsewhere

            self.counted_games = CountedGames(self.plan, self.run.folder, self.old, asked)
            self.add_of_others()
        if not self.share:
            clear_running(self.run.folder)
        self.play()
        if self.counted_games:
            self.counted_games.keep_left_out()
        return self.status()

    # ---- trials

    def try_engines(self, names: Iterable[str]) -> Sequence[str]:
        """Tries these engines. Where some can't be started no game is begun, and these are
        returned."""
        try:
            self.known.try_all(names)
        except NoStart as problem:
            self.is_unable = True
            output.report(problem.text)
            host, engines = os.uname().nodename, problem.engines
            reasons = {engine: f"it can't be started on {host}" for engine in engines}
            self.hooks.add_failures(reasons or {host: problem.text})
            return engines
        except OSError as error:
            self.run.end_without_space(error)
        return ()

    def try_added(self, folder: Folder) -> int | None:
        """Tries the engines that the plan in the folder doesn't have. Returns the status where that
        plan is to stay as it is, since one can't be started, or the run is stopped."""
        if folder.added:
            make_folders(self.run.folder)
            self.try_engines(folder.added)
        if self.is_unable:
            kept = "is not made" if folder.is_new else "stays as it was"
            output.report(
                f"{self.run.folder}/plan {kept}: give the command again with what can be started, "
                "or make the plan by tournament plan, which tries no engine"
            )
            return NO_START
        return self.status() if self.run.stopped or self.run.no_space else None

    def advise(self, engines: Sequence[str]) -> None:
        """Says how the games of the others are played, if any are missing, where these engines
        can't be started."""
        sides = self.games.sides
        others = (
            game
            for game in self.missing()
            if not set(engines).intersection(sides[game % len(sides)])
        )
        if self.share or next(others, None) is None:
            return
        import shlex  # which isn't needed elsewhere

        names = "|".join(engine.replace(".", "\\.").replace("+", "\\+") for engine in engines)
        folder = shlex.quote(self.run.folder)
        listed = f"tournament list {folder} | grep -vE '_({names})(_|$)'"
        played = f"xargs -n 1 -P {self.jobs} tournament game {folder}"
        output.report(f"to play the games of the others: {listed} | {played}")

    # ---- what is said at the end

    def counted(self, lost: int = 0) -> str:
        """Returns how many games have a result, in how many of them a side was unfit or abandoned,
        if that is to be said, and of a share how many are missing."""
        missing = self.total - self.count
        share = f" of task {self.share}" if self.share else ""
        again = ""
        if lost:
            them = "these" if lost > 1 else "it"
            again = f", {lost} of them unfit, abandoned or late: --again plays {them} again"
        left = ""
        if self.share and missing:
            left = f"{';' if lost else ','} {missing} are missing"
        return f"{self.count} of {self.total} games{share} have a result{again}{left}"

    def say_what_is_not_scored(self) -> None:
        """Says how many games of the plan aren't scored, if it has a scorer, and any aren't."""
        if self.plan.scorer and not self.share and not self.run.stopped:
            from ..store.scores import count_missing  # which isn't needed elsewhere

            count = count_missing(self.plan, self.run.folder)
            if count:
                output.report(
                    f"games that aren't scored yet: {count}; tournament score {self.run.folder} "
                    "scores them"
                )

    def status(self) -> int:
        """Says how many games have a result, and returns the status."""
        counted = self.counted()
        if self.run.stopped:
            output.report(f"stopped: {counted}; the same command goes on")
            return self.run.stop_status()
        if (self.count < self.total or self.old) and self.has_no_time():
            output.report(
                f"another game of {self.plan.limit} seconds doesn't fit into the time left; the "
                "same command goes on"
            )
        if self.later and not self.run.no_space and not self.is_decided():
            output.report(f"games that another process plays: {len(self.later)}")
        self.print(self.counted(0 if self.is_unable else self.count_of(State.LOST)))
        if self.counted_games and self.counted_games.test:
            from ..report.text import line_of_test  # which isn't needed elsewhere

            self.print(
                line_of_test(self.counted_games.test, f"task {self.share}" if self.share else "")
            )
        self.say_what_is_not_scored()
        if not self.is_written:
            output.report(f"{counted}; the same command goes on")
        if self.is_unable:
            return NO_START
        others = len(self.later) if self.share else 0  # of a task that was submitted twice
        has_all = self.count + others >= self.total and not self.count_of(State.LOST)
        has_all = has_all or self.is_decided()
        return 0 if has_all and self.is_written and not self.run.stopped else 1
