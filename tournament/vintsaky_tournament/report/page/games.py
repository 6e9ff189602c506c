"""The games of a folder as its page shows them: moves, seconds, and how each ended. A game is read
again only where its file has changed."""
from __future__ import annotations

import contextlib
import copy
import os
import re
import time
from array import array
from typing import Iterator, Mapping, NamedTuple, Sequence

from ...config.rules import PASS
from ...config.setup import Setup
from ...model import COLUMNS, SIDES, GameId, Plan, Result, Side, State, Way
from ...stats.endings import Endings, Rules
from ...stats.records import is_host
from ...stats.summary import Counts
from ...store import notes, results, scores

# how games end, in the order of legends; FAILED are those in which a side or the run failed
KINDS = {
    Way.WON: "score",
    Way.RESIGNED: "resignation",
    Way.DRAWN: "draw",
    Way.LIMIT: "limit",
    Way.TIME: "time",
    Way.FORFEITED: "forfeit",
    Way.UNFIT: "unfit",
    Way.ABANDONED: "abandoned",
    Way.LATE: "late",
}
FAILED = ("time", "forfeit", "unfit", "abandoned", "late")
IN_PLAY = "in play"
ALL_KINDS = (*KINDS.values(), IN_PLAY)
NOTED = re.compile(
    rb"(?mi)^([0-9]{1,4}) (?:black|white) ([A-HJ-Z][0-9]{1,2}|pass|resign) ([0-9.]{1,20}|opening)"
    rb"(?: |$)"
)
THOUGHT = re.compile(rb"\nthought: black ([0-9.]{1,20}), white ([0-9.]{1,20})")
OPENING, LONGEST = b"opening", 10**9  # milliseconds
Stamp = Sequence[int]


class Noted(NamedTuple):
    """What notes say of a game."""

    times: array[int] | None = None  # of each move: milliseconds and one more; 0 if unknown
    others: tuple[Sequence[int], Sequence[int]] = ((), ())  # of Black's and White's answers beside
    seconds: tuple[float, float] | None = None  # of both sides
    host: str = ""
    faults: Sequence[notes.Fault] = ()


class Game(NamedTuple):
    """A game of the page."""

    number: int  # in the plan
    verdict: str
    kind: str
    winner: Side | None
    blamed: Side | None
    restarts: tuple[int, int]
    moves: array[int]
    noted: Noted
    ended: float  # the time of its result
    dead: tuple[int, ...]  # points of the stones that a scorer named
    other_verdict: str  # of twogtp, where the scorer's counts and differs
    stamp: Stamp

    @property
    def length(self) -> int:
        """Returns how many moves it has."""
        return len(self.moves)

    @property
    def has_failed(self) -> bool:
        """Returns whether a side failed in it."""
        return self.kind in FAILED

    @property
    def has_files(self) -> bool:
        """Returns whether its log and its notes are of interest: an engine failed in it."""
        return self.has_failed or any(self.restarts)


class Reader:
    """Reads the games of a folder."""

    def __init__(self, plan: Plan, folder: str, rules: Rules) -> None:
        self.plan, self.folder, self.games = plan, folder, plan.games()
        self.setup = Setup(plan.options)
        self.size = self.setup.rows()
        self.numbers = numbers_of(self.size)
        self.endings = Endings(plan, folder, rules)
        self.times: dict[bytes, int] = {}  # of seconds as they are written
        self.first = SIDES[self.setup.stones() > 0]

    def ended(self, counts: Counts, known: Mapping[int, Game]) -> Iterator[Game]:
        """Yields the games that have a result, in the plan's order. Those that are known are taken
        as they are, where their files haven't changed."""
        rule = results.Rule(self.plan)
        for number, state in enumerate(counts.states):
            if state != State.WHOLE:
                continue
            name = self.games.name(number)
            stamp = self.stamp_of(name)
            before = known.get(number)
            if before and before.stamp == stamp:
                yield before
                continue
            with contextlib.suppress(OSError):
                result = rule.read(f"{self.folder}/games/{name}")
                if result:
                    yield self.game(number, name, result, stamp)

    def stamp_of(self, name: str) -> Stamp:
        """Returns the times of a game's files: result, notes, and score."""
        found = []
        for kind in ("games", "notes", *(["scores"] if self.plan.scorer else [])):
            try:
                found.append(os.stat(f"{self.folder}/{kind}/{name}").st_mtime_ns)
            except OSError:
                found.append(0)
        return found

    def game(self, number: int, name: str, result: Result, stamp: Stamp) -> Game:
        """Returns a game with this result."""
        ending, restarts, verdict = self.endings.of(number, result)
        data = None
        if not self.plan.is_direct:
            data = notes.bytes_for(self.folder, name, result.line)
        noted = self.noted(data, result.length)
        if data and (ending.blamed is not None or any(restarts)):
            noted = noted._replace(faults=notes.faults_in(data.decode("latin-1")))
        return Game(
            number=number,
            verdict=verdict,
            kind=KINDS[ending.way],
            winner=ending.winner,
            blamed=ending.blamed,
            restarts=restarts,
            moves=array("H", [self.numbers[vertex] for vertex in result.vertices.split()]),
            noted=noted,
            ended=stamp[0] / 1e9,
            dead=self.dead_in(name, result),
            other_verdict=result.verdict if result.verdict != verdict else "",
            stamp=stamp,
        )

    def dead_in(self, name: str, result: Result) -> tuple[int, ...]:
        """Returns the points of the dead stones that a scorer named."""
        if not self.plan.scorer or not scores.is_by_score(result.verdict):
            return ()
        score = scores.read(self.folder, name, self.plan.scorer, result)
        vertices = score.dead if score else ()
        return tuple(self.numbers[vertex] for vertex in vertices if vertex in self.numbers)

    def noted(self, data: bytes | None, length: int) -> Noted:
        """Returns what the notes of a game say. Of moves with one number the last one is in the
        record, and others were taken back. The tally counts these too, and resignations."""
        if data is None:
            return Noted()
        times = array("I", bytes(4 * length))
        others: tuple[list[int], list[int]] = ([], [])
        for number, _, text in NOTED.findall(data):
            at, taken = int(number) - 1, 0 if text == OPENING else self.time(text)
            if 0 <= at < length:
                times[at], taken = taken, times[at]
            if taken:
                others[(at + self.first) % 2].append(taken)
        thought = THOUGHT.search(data, max(0, data.rfind(b"\nthought: ")))
        seconds = (seconds_in(thought[1]), seconds_in(thought[2])) if thought else None
        host = data.partition(b"\n")[0].partition(b" on ")[2].decode("latin-1").split(" ")[0]
        beside = (tuple(others[0]), tuple(others[1]))
        return Noted(times, beside, seconds, host if is_host(host) else "")

    def time(self, text: bytes) -> int:
        """Returns seconds in notes as `Noted` has them."""
        known = self.times.get(text)
        if known is None:
            known = self.times[text] = 1 + min(LONGEST, round(1000 * seconds_in(text)))
        return known

    def in_play(self, counts: Counts) -> Iterator[Game]:
        """Yields the games that are being played. No lock is looked at: that would take it, and a
        run might just then want it."""
        running = f"{self.folder}/running"
        names = sorted(os.listdir(running)) if os.path.isdir(running) else []
        for name in names:
            number = self.games.number(name)
            again = f"{running}/{name}/notes"  # of a game that has an old result
            if number is None:
                continue
            if counts.states[number] == State.WHOLE and not os.path.exists(again):
                continue
            for place in (again, f"{self.folder}/notes/{name}"):
                with contextlib.suppress(OSError):
                    yield self.unended(number, place)
                    break

    def unended(self, number: int, place: str) -> Game:
        """Returns a game by its notes so far, which are in this place."""
        data, changed = results.bytes_of(place), os.stat(place).st_mtime
        played = {}
        for at, vertex, seconds in NOTED.findall(data):
            spelled = vertex.decode("latin-1")
            spelled = PASS if spelled.lower() == PASS else spelled.upper()
            if spelled in self.numbers:
                played[int(at)] = (self.numbers[spelled], seconds)
        moves, times = array("H"), array("I")
        while len(moves) + 1 in played:
            move, text = played[len(moves) + 1]
            moves.append(move)
            times.append(0 if text == OPENING else self.time(text))
        return Game(
            number=number,
            verdict=IN_PLAY,
            kind=IN_PLAY,
            winner=None,
            blamed=None,
            restarts=(0, 0),
            moves=moves,
            noted=self.noted(data, len(moves))._replace(times=times),
            ended=changed,
            dead=(),
            other_verdict="",
            stamp=(),
        )


class Gathered:
    """The games of a folder: those that have ended, and those in play."""

    def __init__(self, counts: Counts, rules: Rules, before: Gathered | None = None) -> None:
        self.counts, self.plan, self.folder = counts, counts.plan, counts.folder
        self.names = counts.games
        self.reader = Reader(self.plan, self.folder, rules)
        self.setup, self.size = self.reader.setup, self.reader.size
        known = {game.number: game for game in before.ended} if before else {}
        self.ended: list[Game] = list(self.reader.ended(counts, known))
        self.look()

    def look(self) -> None:
        """Looks at the games in play."""
        self.now = time.time()
        self.playing: list[Game] = list(self.reader.in_play(self.counts))

    def with_games_in_play(self) -> Gathered:
        """Returns the same games that have ended, with those in play as they are now."""
        found = copy.copy(self)
        found.look()
        return found

    def name(self, game: Game) -> str:
        """Returns the name of a game."""
        return self.names.name(game.number)

    def engines(self, game: Game) -> tuple[str, str]:
        """Returns the engines of a game, Black's first."""
        return self.names.sides[game.number % len(self.names.sides)]

    def seed(self, game: Game) -> int:
        """Returns the seed of a game."""
        return GameId.parse(self.name(game)).seed


def seconds_in(text: bytes) -> float:
    """Returns the seconds that notes have."""
    return notes.seconds_of(text.decode("latin-1"))


def numbers_of(size: int) -> dict[str, int]:
    """Returns the number of each move on a board: row by row from A1, and last the pass."""
    points = {
        f"{COLUMNS[column]}{row + 1}": row * size + column
        for row in range(size)
        for column in range(size)
    }
    return {**points, PASS: size * size}
