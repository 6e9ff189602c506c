"""How long the moves of each engine took, by the notes, and its scores by that."""
from __future__ import annotations

from collections import Counter

from ..model import SIDES, Plan, Result, Side
from ..store import notes
from ..store.index import Index
from .pairs import Score

# seconds a move, in the mean of a game, at which a step ends and the next one begins
ENDS = [part * 10**power / 100 for power in range(6) for part in (1, 2, 5)]


class Step:
    """The games in which the moves of an engine took so long on average: the scores of the engine,
    and all their moves."""

    def __init__(self) -> None:
        self.scores: Counter[int] = Counter()
        self.moves, self.seconds, self.longest = 0, 0.0, 0.0

    @property
    def mean(self) -> float:
        """Returns the mean of all moves."""
        return self.seconds / self.moves


class Times:
    """The steps of each engine."""

    def __init__(self, plan: Plan, folder: str, index: Index) -> None:
        self.games, self.folder, self.index = plan.games(), folder, index
        self.steps: dict[str, dict[int, Step]] = {name: {} for name in plan.engines}

    def add(self, game: int, result: Result, score: int) -> None:
        """Takes a game, with Black's score."""
        name = self.games.name(game)
        found = self.index.noted(name) or notes.noted_in(self.folder, name, result.line)
        if not found:
            return
        for side, engine in zip(SIDES, self.games.sides[game % len(self.games.sides)]):
            if found.moves[side]:
                at = sum(end <= found.moved[side] / found.moves[side] for end in ENDS)
                step = self.steps[engine].setdefault(at, Step())
                step.scores[score if side is Side.BLACK else of_white(score)] += 1
                step.moves += found.moves[side]
                step.seconds += found.moved[side]
                step.longest = max(step.longest, found.longest[side])


def of_white(score: int) -> int:
    """Returns White's score of a game, by Black's."""
    return {Score.LOST: Score.WON, Score.WON: Score.LOST}.get(Score(score), score)


def name_of(at: int) -> str:
    """Returns the seconds of a step."""
    if at == 0:
        return f"below {ENDS[0]:g} s"
    return f"{ENDS[at - 1]:g} to {ENDS[at]:g} s" if at < len(ENDS) else f"{ENDS[-1]:g} s or more"
