"""The summary of a tournament: what is counted of its results, for every form of the tally."""
from __future__ import annotations

import contextlib
import os
from collections import Counter, defaultdict
from typing import TYPE_CHECKING, Iterator, NamedTuple, Sequence

from ..model import FORFEITS, SIDES, Ending, Plan, Side, State, Way
from ..store import results
from .endings import Endings, Rule, Rules
from .pairs import PairCounts, Pairs

if TYPE_CHECKING:
    from .sprt import Test, TestRequest
    from .standings import Standings
    from .times import Times

OTHERS_TO_LOOK_INTO = (Way.UNFIT, Way.ABANDONED, Way.LATE, Way.TIME)
LENGTH = 50  # moves of a step, by which games are counted


class Counts:
    """What was counted of the results in a folder, by the rules for sides that failed. Games that
    nobody won may be left out of the pairs, unless they are drawn. The times of moves, for which
    all notes are read that have no index, are counted where that is asked."""

    def __init__(
        self,
        plan: Plan,
        folder: str,
        rules: Rules = Rules(),
        leave_out_undecided: bool = False,
        has_times: bool = False,
    ) -> None:
        self.plan, self.games, self.folder, self.rules = plan, plan.games(), folder, rules
        self.out = set(Way) - {Way.DRAWN} if leave_out_undecided else set(rules.ways(Rule.OUT))
        self.states = bytearray(self.games.count)
        # of two engines with these colours: how often a game ended so
        self.endings: list[dict[Ending, int]] = [{} for _ in self.games.sides]
        self.restarts: Counter[str] = Counter()  # of each engine
        self.restarted = 0  # games
        self.pairs = Pairs(plan, self.out)
        # of games by steps of LENGTH: their scores
        self.lengths: defaultdict[int, Counter[int]] = defaultdict(Counter)
        endings = Endings(plan, folder, rules)
        self.times = self.new_times(endings) if has_times else None
        for game, result in results.of_all(plan, folder, index=endings.index):
            self.states[game] = State.WHOLE if result else State.DAMAGED
            if result:
                sides, (ending, restarts) = game % len(self.endings), endings.of(game, result)[:2]
                self.endings[sides][ending] = self.endings[sides].get(ending, 0) + 1
                self.pairs.add(game, ending, result)
                self.lengths[result.length // LENGTH][self.pairs.scores[game]] += 1
                if self.times:
                    self.times.add(game, result, self.pairs.scores[game])
                if any(restarts):
                    self.add_restarts(self.games.sides[sides], restarts)
        self.all_endings: Counter[Ending] = Counter()
        for counted in self.endings:
            self.all_endings.update(counted)
        self.unknown, self.scored = endings.unknown, endings.scored
        self.have = self.states.count(State.WHOLE)
        self.find_logs()

    def new_times(self, endings: Endings) -> Times:
        """Returns what counts the times of moves."""
        from .times import Times  # which isn't needed elsewhere

        return Times(self.plan, self.folder, endings.index)

    def find_logs(self) -> None:
        """Finds the games without a result of which there is a log."""
        with contextlib.suppress(FileNotFoundError), os.scandir(f"{self.folder}/logs") as logs:
            for log in logs:
                game = self.games.number(log.name)
                if game is not None and self.states[game] == State.MISSING:
                    self.states[game] = State.LOGGED

    def add_restarts(self, engines: Sequence[str], restarts: Sequence[int]) -> None:
        """Counts the restarts of both engines in a game."""
        self.restarted += 1
        for engine, count in zip(engines, restarts):
            self.restarts[engine] += count

    def ended(self, *ways: Way) -> int:
        """Returns the number of games that ended in one of these ways."""
        return sum(count for ending, count in self.all_endings.items() if ending.way in ways)

    def with_winner(self, way: Way | None = None) -> int:
        """Returns the number of games that have a winner, or of those that ended in this way."""
        return sum(
            count
            for ending, count in self.all_endings.items()
            if ending.winner is not None and way in (ending.way, None)
        )

    def won_by(self, side: Side) -> int:
        """Returns the number of games that this side won."""
        return sum(count for ending, count in self.all_endings.items() if ending.winner is side)

    def descriptions(self) -> Counter[str]:
        """Returns the number of games that ended in each way, of a forfeit by its cause."""
        found: Counter[str] = Counter()
        for ending, count in self.all_endings.items():
            found[ending.description] += count
        return found

    def has_failed(self, game: int) -> bool:
        """Returns whether a game has no result after its try, and a log that says why."""
        return self.states[game] == State.LOGGED and self.reason(game) != ""

    def reason(self, game: int) -> str:
        """Returns why a game that has a log has no result; an empty text where nobody knows."""
        return results.logged_reason(f"{self.folder}/logs/{self.games.name(game)}")

    def test(self, asked: TestRequest) -> Test:
        """Returns the sequential test that is asked for."""
        from ..store.left_out import Decided  # which isn't needed elsewhere
        from .sprt import Test

        left_out = Decided(self.folder, asked.text()).games(self.games)
        return Test(self.pairs, asked, self.has_failed, left_out)

    @property
    def missing(self) -> int:
        """Returns the number of games without a result, be it that nobody has played them yet."""
        return self.games.count - self.have

    def damaged(self) -> int:
        """Returns the number of damaged files."""
        return self.states.count(State.DAMAGED)


class Row:
    """How games ended of one engine, of one against another one, or of one with one colour."""

    def __init__(self) -> None:
        self.won = self.decided = self.drawn = self.all = 0

    def add(self, ending: Ending, side: Side, count: int) -> None:
        """Adds so many games that ended so, in which the engine had this side."""
        self.all += count
        self.decided += count if ending.winner is not None else 0
        self.won += count if ending.winner is side else 0
        self.drawn += count if ending.way is Way.DRAWN else 0

    @property
    def lost(self) -> int:
        """Returns how many it lost."""
        return self.decided - self.won

    @property
    def points(self) -> float:
        """Returns its points: half a one for a game that is drawn."""
        return self.won + self.drawn / 2


class EngineRow:
    """What an engine has against all others: its games, those of each colour, and its pairs."""

    def __init__(self, name: str) -> None:
        self.name, self.games, self.pairs = name, Row(), PairCounts()
        self.by_side = (Row(), Row())
        self.opponents = 0


class PairingRow:
    """What two engines have of each other, as the first one sees it."""

    def __init__(self, first: str, second: str, pairs: PairCounts) -> None:
        self.first, self.second, self.games, self.pairs = first, second, Row(), pairs


class Blame(NamedTuple):
    """How often an engine was to blame for an ending, crashed, or was restarted."""

    engine: str
    cause: str
    times: int


class Best(NamedTuple):
    """The engine that leads, the next one, and how likely it is that the first is better."""

    engine: str
    other: str
    better: float


class Summary:
    """What each engine has, alone and against each other one."""

    def __init__(self, counts: Counts) -> None:
        self.counts = counts
        self.rows = {name: EngineRow(name) for name in counts.plan.engines}
        self.pairings: dict[tuple[str, str], PairingRow] = {}  # of each two, in both orders
        self.blamed: Counter[tuple[str, str]] = Counter()  # of an engine and a description
        for pairing in counts.pairs.pairings():
            found = counts.pairs.of_two(pairing)
            self.add_pairing(pairing.first, pairing.second, found)
            self.add_pairing(pairing.second, pairing.first, found.turned())
        for sides, endings in zip(counts.games.sides, counts.endings):
            for ending, count in endings.items():
                self.add(sides, ending, count)
        self.order = sorted(self.rows.values(), key=lambda row: -row.games.points)

    def add_pairing(self, one: str, other: str, found: PairCounts) -> None:
        """Adds the pairs of two engines, as the first one sees them."""
        self.pairings[one, other] = PairingRow(one, other, found)
        self.rows[one].pairs.add(found)
        self.rows[one].opponents += 1

    def add(self, engines: tuple[str, str], ending: Ending, count: int) -> None:
        """Adds so many games of these engines that ended so."""
        if ending.blamed is not None:
            self.blamed[engines[ending.blamed], ending.description] += count
        for side, engine in zip(SIDES, engines):
            row, pairing = self.rows[engine], self.pairings[engine, engines[side.other]]
            for games in (row.games, row.by_side[side], pairing.games):
                games.add(ending, side, count)

    def played(self) -> Iterator[PairingRow]:
        """Yields each two engines that play, the better one first."""
        for at, one in enumerate(self.order):
            for other in self.order[at + 1 :]:
                if (one.name, other.name) in self.pairings:
                    yield self.pairings[one.name, other.name]

    def standings(self) -> Standings:
        """Returns the ratings of the engines."""
        from .standings import Standings  # which isn't needed elsewhere

        return Standings(self.counts.pairs, list(self.rows))

    def best(self, standings: Standings) -> Best | None:
        """Returns who is best, by these standings, or of two engines by their pairs; None where no
        games say so, or where some engines aren't joined to the others by games."""
        if len(self.rows) == 2:
            rows = [row for row in self.pairings.values() if row.pairs.clusters]
            rows.sort(key=lambda row: -(row.pairs.score() or 0.0))
            chance = rows[0].pairs.better() if rows else None
            return None if chance is None else Best(rows[0].first, rows[0].second, chance)
        groups = standings.groups
        if len(groups) != 1 or len(groups[0]) < len(self.rows):
            return None
        first, second = groups[0][:2]
        return None if first.better is None else Best(first.engine, second.engine, first.better)

    def blames(self) -> Iterator[Blame]:
        """Yields how often each engine was to blame, and restarted."""
        of_twogtp = [Ending(None, None, Way.FORFEITED, cause).description for cause in FORFEITS]
        others = [way.value for way in OTHERS_TO_LOOK_INTO]
        of_server = sorted({cause for _, cause in self.blamed} - {*of_twogtp, *others})
        for engine in self.rows:
            for cause in (*of_twogtp, *of_server, *others):
                if self.blamed[engine, cause]:
                    yield Blame(engine, cause, self.blamed[engine, cause])
            restarts = self.counts.restarts[engine]
            crashes = restarts + self.blamed[engine, Way.ABANDONED.value]
            if crashes:  # each restart follows one, and behind the last one it is abandoned
                yield Blame(engine, "crashes", crashes)
            if restarts:
                yield Blame(engine, "restarts", restarts)


class WithoutResult(NamedTuple):
    """A game without a result, and why it has none."""

    game: str
    reason: str


def without_result(counts: Counts) -> Iterator[WithoutResult]:
    """Yields the games whose file is damaged or can't be read, and those whose log says why they
    have no result."""
    for game, state in enumerate(counts.states):
        if state == State.DAMAGED:
            name = counts.games.name(game)
            error = results.read_error(f"{counts.folder}/games/{name}")
            damage = f"its file can't be read: {error}" if error else "its file is damaged"
            yield WithoutResult(name, damage)
        elif state == State.LOGGED:
            reason = counts.reason(game)
            if reason:
                yield WithoutResult(counts.games.name(game), reason)
