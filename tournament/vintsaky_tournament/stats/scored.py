"""What the scorer of a plan says of its games, and how many of them it scored otherwise."""
from __future__ import annotations

from typing import NamedTuple

from ..model import Plan, Result
from ..store import scores


class Unscored(NamedTuple):
    """A game that isn't scored, and why."""

    game: str
    reason: str


class Scored:
    """The scores of a folder's games, which are counted where they are read."""

    def __init__(self, plan: Plan, folder: str) -> None:
        self.scorer, self.folder = plan.scorer or "", folder
        self.count = 0  # games that are scored
        self.other_score = self.other_winner = self.by_final_score = 0
        self.unscored: list[Unscored] = []

    def verdict(self, name: str, result: Result) -> str:
        """Returns the verdict of a game that counts: the scorer's, where it has one."""
        if not self.scorer or not scores.is_by_score(result.verdict):
            return result.verdict
        score = scores.read(self.folder, name, self.scorer, result)
        if score is None or score.verdict is None:
            reason = score.failure if score else "the scorer wasn't asked, or was stopped"
            self.unscored.append(Unscored(name, reason))
            return result.verdict
        self.count += 1
        self.other_score += score.verdict != result.verdict
        self.other_winner += score.verdict[0] != result.verdict[0]
        self.by_final_score += score.method == scores.BY_SCORE
        return score.verdict
