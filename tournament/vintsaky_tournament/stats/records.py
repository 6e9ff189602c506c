"""What is known of each game that has a result, for exports."""
from __future__ import annotations

from typing import Iterator, NamedTuple

from ..cluster import Share
from ..config.setup import Setup
from ..model import Ending, Plan, Result
from ..store import notes, results
from ..store.versions import versions_of
from .endings import Endings, Rules

ALL = Share(1, 1)
LONGEST_HOST = 64  # characters
RULESET = "Chinese"  # of twogtp: area scoring, simple ko, no suicide


class Terms(NamedTuple):
    """What all games of a plan are played by."""

    size: int
    komi: float
    handicap: int
    ruleset: str
    clock: str | None
    move_limit: float | None  # seconds

    @classmethod
    def of_plan(cls, plan: Plan) -> Terms:
        """Returns those of a plan."""
        setup, limit = Setup(plan.options), plan.move_limit
        komi, seconds = setup.half_points() / 2, float(limit) if limit else None
        return cls(setup.rows(), komi, setup.stones(), RULESET, plan.clock, seconds)


class Record(NamedTuple):
    """A game that has a result, and what is known of it."""

    game: str
    black: str
    white: str
    seed: int
    opening: int | None  # its number in the plan
    verdict: str
    winner: str | None
    moves: int
    black_seconds: float | None
    white_seconds: float | None
    host: str | None
    black_version: str | None
    white_version: str | None
    twogtp_version: str | None
    rule: str  # what a game counts in which a side failed
    date: str | None  # when it began, in UTC
    ending: Ending
    result: Result


OWN_FIELDS = Record._fields[:-2]  # of a table, in which each game has its own values
FIELDS = (*OWN_FIELDS, *Terms._fields)


class Machine(NamedTuple):
    """A machine on which games were played: its name, and the versions of the programs as they were
    tried there."""

    name: str | None
    versions: dict[str, str | None]


class Records:
    """The games of a folder that have a result, in the plan's order."""

    def __init__(self, plan: Plan, folder: str, rules: Rules) -> None:
        self.plan, self.folder, self.games = plan, folder, plan.games()
        self.endings, self.rule = Endings(plan, folder, rules), rules.text()
        self.terms = Terms.of_plan(plan)
        self.machines: dict[str, Machine] = {}  # by their names in notes
        self.without = self.games.count  # those that have no result

    def __iter__(self) -> Iterator[Record]:
        states = bytearray(self.games.count)
        index = self.endings.index
        for game, result in results.of_share(self.plan, self.folder, ALL, states, index=index):
            if result:
                self.without -= 1
                yield self.record(game, result)

    def record(self, game: int, result: Result) -> Record:
        """Returns what is known of a game."""
        seed, at = divmod(game, len(self.games.sides))
        (black, white), name = self.games.sides[at], self.games.name(game)
        (ending, _, verdict), openings = self.endings.of(game, result), self.plan.openings
        thought = self.thought(name, result)
        machine = self.machine(thought.host if thought else "")
        versions = machine.versions
        black_seconds, white_seconds = thought.seconds if thought else (None, None)
        return Record(
            game=name,
            black=black,
            white=white,
            seed=seed + 1,
            opening=seed % len(openings) + 1 if openings else None,
            verdict=verdict,
            winner=None if ending.winner is None else ending.winner.colour,
            moves=result.length,
            black_seconds=black_seconds,
            white_seconds=white_seconds,
            host=machine.name,
            black_version=versions.get(f"engine {black}"),
            white_version=versions.get(f"engine {white}"),
            twogtp_version=versions.get("twogtp"),
            rule=self.rule,
            date=thought.date or None if thought else None,
            ending=ending,
            result=result,
        )

    def thought(self, name: str, result: Result) -> notes.Thought | None:
        """Returns how long both sides thought, if the notes of a game are of this result."""
        found = self.endings.index.thought(name)
        if found is None:
            noted = notes.noted_in(self.folder, name, result.line)
            found = noted and notes.Thought(noted.host, noted.date, noted.thought)
        return found

    def machine(self, host: str) -> Machine:
        """Returns the machine that has this name in notes; one without a name where it is none."""
        found = self.machines.get(host)
        if found is None:
            is_known = is_host(host)
            versions = versions_of(f"{self.folder}/tried/{host}") if is_known else {}
            found = self.machines[host] = Machine(host if is_known else None, versions)
        return found


def is_host(text: str) -> bool:
    """Returns whether a machine may have this name, which is part of a path: notes may be
    damaged."""
    is_name = text.isprintable() and "/" not in text and text.strip(".") != ""
    return is_name and 0 < len(text) <= LONGEST_HOST
