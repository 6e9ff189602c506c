"""A check of a plan before it is played: each engine is tried, and each two that play each other
play one short game, in a directory of their own. By that it is said how long all games take."""
from __future__ import annotations

import copy
import time
from typing import Iterable, Iterator, NamedTuple

from ..config.setup import Setup
from ..model import GameId, Plan, Result
from ..store import notes
from ..store.layout import make_folders
from ..store.versions import versions_of
from .known import KnownEngines
from .run import Finished, Run

SHORT = 20  # moves of a short game, behind those of an opening


class Sample(NamedTuple):
    """A short game: its result, how many seconds it took, and in how many of these engines
    thought."""

    name: str
    result: Result | None
    seconds: float
    thought: float

    def has_ended(self) -> bool:
        """Returns whether it has a result, in which no side was unfit, abandoned or late."""
        return self.result is not None and not self.result.is_lost()

    def crashed(self) -> list[str]:
        """Returns the engines that crashed in it, and were started again."""
        if self.result is None or self.result.is_lost():
            return []
        engines = GameId.parse(self.name).engines
        return [engine for engine, count in zip(engines, self.result.restarts) if count]

    def engines(self) -> frozenset[str]:
        """Returns both engines."""
        return frozenset(GameId.parse(self.name).engines)

    def estimate(self, opening: int, length: int) -> float:
        """Returns the seconds of a whole game of this length, unless this one ended before its
        limit of moves. So many moves of both are those of an opening."""
        if not self.result:
            return 0
        moves = max(1, self.result.length - opening)
        more = max(0, length - opening - moves) if self.result.verdict == "limit" else 0
        return self.seconds + self.thought * more / moves


def opening_length(plan: Plan) -> int:
    """Returns how many moves the opening of the first seed has."""
    return len((plan.opening(1) or "").split())


def short_plan(plan: Plan) -> Plan:
    """Returns a plan with the same engines, and one seed, whose games are short."""
    short, options = copy.copy(plan), list(plan.options)
    short.seeds, short.known_games = 1, None
    moves = min(SHORT + opening_length(plan), int(Setup(options).max_moves))
    for at, option in reversed(list(enumerate(options))):
        if option.startswith("--max-moves"):
            del options[at : at + (1 if "=" in option else 2)]
    short.options = [*options, "--max-moves", str(moves)]
    return short


class Check:
    """The short games of a plan, in a new directory."""

    def __init__(self, plan: Plan, folder: str, twogtp: str, jobs: int) -> None:
        self.plan, self.jobs = short_plan(plan), jobs
        make_folders(folder)
        self.run = Run(self.plan, folder, twogtp)
        self.known = KnownEngines(self.run, self.plan)
        self.began: dict[str, float] = {}  # when each game did

    def try_engines(self) -> dict[str, str | None]:
        """Tries all engines, and returns what each says that it is. Raises NoStart where one can't
        be started."""
        self.known.try_all(self.plan.engines)
        versions = versions_of(self.known.place)
        return {name: versions.get(f"engine {name}") for name in self.plan.engines}

    def play(self) -> Iterator[Sample]:
        """Plays the short games, and yields each when it has ended."""
        names = [f"1_{black}_{white}" for black, white in self.plan.games().sides[::2]]
        while (names or self.run.playing) and not self.run.is_ending():
            while names and len(self.run.playing) < self.jobs:
                name = names.pop(0)
                self.began[name] = time.monotonic()
                self.run.begin(name)
            yield from map(self.sample, self.run.wait())
        self.run.tree.end()

    def sample(self, game: Finished) -> Sample:
        """Returns a game that has ended."""
        seconds = time.monotonic() - self.began[game.name]
        found = None if self.plan.is_direct else notes.read(f"{self.run.at}/notes/{game.name}")
        thought = sum(found.thought) if found else seconds
        return Sample(game.name, game.result, seconds, min(thought, seconds))


def usual_length(plan: Plan) -> int:
    """Returns how many moves a game may have: one for each point, if that many are allowed."""
    setup = Setup(plan.options)
    return min(setup.rows() ** 2, int(setup.max_moves))


def seconds_of_games(plan: Plan, samples: Iterable[Sample], names: Iterable[str]) -> float:
    """Returns how long these games of a plan take together, by a sample of each two engines. None
    takes longer than its limit."""
    opening, length, most = opening_length(plan), usual_length(plan), float(plan.limit or 0)
    of_two = {sample.engines(): min(most, sample.estimate(opening, length)) for sample in samples}
    return sum(of_two[frozenset(GameId.parse(name).engines)] for name in names)
