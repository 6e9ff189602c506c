"""Compares the results of a folder with what a replay by gtp_engine says."""
from __future__ import annotations

from typing import Iterator, NamedTuple

from ..cluster import Share
from ..config.setup import Setup
from ..model import Plan, Result
from ..play.trial import Refusal
from ..store import results
from .replay import Replayer, first_colour, is_over

ALL = Share(1, 1)
BY_MOVER = ("F(illegal move)", "F(no vertex)", "F(no move)", "R")  # how the side to move loses
REFUSED = "F(refused play)"  # by the side to move, too, unless it was a restart that refused


class Difference(NamedTuple):
    """A game whose result isn't what a replay says, and why."""

    game: str
    reason: str


class Verifier:
    """The results of a folder, and the engine that replays them."""

    def __init__(self, plan: Plan, folder: str, replayer: Replayer) -> None:
        self.plan, self.folder, self.replayer = plan, folder, replayer
        self.setup, self.count = Setup(plan.options), 0

    def differences(self) -> Iterator[Difference]:
        """Yields each game whose file is damaged, or whose result isn't what its replay says."""
        games = self.plan.games()
        found = results.of_share(self.plan, self.folder, ALL, bytearray(games.count))
        for number, result in found:
            self.count += 1
            reason = self.difference(result) if result else "its file is damaged"
            if reason:
                yield Difference(games.name(number), reason)

    def difference(self, result: Result) -> str | None:
        """Returns what differs of a result; None where nothing does."""
        vertices, verdict = result.vertices.split(), result.verdict
        try:
            self.replayer.set_up(self.setup)
            self.replayer.play(self.setup, result)
        except Refusal as refusal:
            return refusal.text
        most = int(self.setup.max_moves)
        if result.length > most or verdict == "limit" and result.length < most:
            return f"the limit is {most} moves, and not {result.length}"
        if is_over(vertices):
            score = self.replayer.ask("final_score")
            return None if verdict == score else f"{verdict}, but the score is {score}"
        if verdict[0] in "BW0" and not self.is_ended_early(verdict):
            return f"{verdict}, but its moves don't end with two passes"
        loser = (first_colour(self.setup) + result.length) % 2
        if self.is_by_mover(result) and verdict[0] == "BW"[loser]:
            return f"{verdict}, but the side to move is {('Black', 'White')[loser]}"
        return None

    def is_ended_early(self, verdict: str) -> bool:
        """Returns whether a game with this verdict ended without a score."""
        return verdict[2:3] in ("R", "F", "T")

    def is_by_mover(self, result: Result) -> bool:
        """Returns whether the side to move has lost a game that ended so."""
        how = result.verdict[2:]
        return how in BY_MOVER or how == REFUSED and not any(result.restarts)
