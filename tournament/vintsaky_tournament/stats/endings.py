"""How games ended, for the tally and for exports: who won, and who is to blame where nobody did."""
from __future__ import annotations

import enum
from typing import NamedTuple

from ..model import COLOURS, SIDES, Ending, Plan, Result, Way
from ..store import notes
from ..store.index import Index
from .scored import Scored

WITHOUT_WINNER = {"0": Way.DRAWN, "limit": Way.LIMIT}


def ending_of(verdict: str) -> Ending:
    """Returns how a game with this verdict ended."""
    if verdict in WITHOUT_WINNER:
        return Ending(None, None, WITHOUT_WINNER[verdict])
    if verdict[1] != "+":
        way, colour = verdict.split(" ")
        return Ending(None, SIDES[COLOURS.index(colour)], Way(way))
    winner, points = SIDES["BW".index(verdict[0])], verdict[2:]
    if points[0] == "F":
        return Ending(winner, winner.other, Way.FORFEITED, points[2:-1])
    if points == "T":
        return Ending(winner, winner.other, Way.TIME)
    return Ending(winner, None, Way.RESIGNED if points == "R" else Way.WON)


class Rule(str, enum.Enum):
    """What a game counts in which a side failed."""

    LOSES = "loses"  # that side
    HALF = "half"  # a point for each side of a pair
    OUT = "out"  # nothing: its pair is left out


class Rules(NamedTuple):
    """What the games count in which a side was abandoned, or was late."""

    abandoned: Rule = Rule.LOSES
    late: Rule = Rule.LOSES

    def by_way(self) -> dict[Way, Rule]:
        """Returns the rule of each way. An unfit side has refused the setup, and so never loses."""
        unfit = Rule.HALF if self.abandoned is Rule.HALF else Rule.OUT
        return {Way.ABANDONED: self.abandoned, Way.LATE: self.late, Way.UNFIT: unfit}

    def ways(self, wanted: Rule) -> list[Way]:
        """Returns the ways that have this rule."""
        return [way for way, rule in self.by_way().items() if rule is wanted]

    def text(self) -> str:
        """Returns the rule of each way, in a few words."""
        parts = []
        for rule in dict.fromkeys(self.by_way().values()):
            *others, last = [way.value for way in self.ways(rule)]
            names = f"{', '.join(others)} or {last}" if others else last
            parts.append(f"{names}: {rule.value}")
        return "; ".join(parts)


class Ended(NamedTuple):
    """How a game ended, and the restarts of both sides, without those that started no engine."""

    ending: Ending
    restarts: tuple[int, int]
    verdict: str  # twogtp's, or that of a scorer


class Endings:
    """How the games of a folder ended, by the rules for sides that failed."""

    def __init__(self, plan: Plan, folder: str, rules: Rules) -> None:
        self.games, self.folder, self.index = plan.games(), folder, Index(plan, folder)
        self.losing = rules.ways(Rule.LOSES)
        self.is_direct = plan.is_direct
        self.scored = Scored(plan, folder)
        self.known: dict[str, Ending] = {}  # of each verdict
        self.unknown = 0  # games in which a side was abandoned, and may have been late

    def of(self, game: int, result: Result) -> Ended:
        """Returns how the game of this number ended."""
        verdict = result.verdict
        if self.scored.scorer:
            verdict = self.scored.verdict(self.games.name(game), result)
        ending = self.known.get(verdict)
        if ending is None:
            ending = self.known[verdict] = ending_of(verdict)
        if ending.way is Way.ABANDONED:
            return self.of_abandoned(game, result, ending)
        return Ended(ending, result.restarts, verdict)

    def of_abandoned(self, game: int, result: Result, ending: Ending) -> Ended:
        """Returns how a game ended in which a side was abandoned, by its notes."""
        side, (black, white) = ending.blamed, result.restarts
        assert side is not None
        found = None if self.is_direct else self.late_in(self.games.name(game), result)
        way = Way.ABANDONED
        if found is None:
            self.unknown += 1
        else:
            black, white = black - found.ignored[0], white - found.ignored[1]
            way = Way.LATE if found.late[side] else way
            if found.out_of_time[side]:
                return Ended(Ending(side.other, side, Way.TIME), (black, white), result.verdict)
        winner = side.other if way in self.losing else None
        return Ended(Ending(winner, side, way), (black, white), result.verdict)

    def late_in(self, name: str, result: Result) -> notes.Noted | notes.Late | None:
        """Returns who was late in a game; None where its notes aren't of this result."""
        return self.index.noted(name) or notes.late_in(self.folder, name, result.line)
