"""What the games of a run say by now: who leads, and whether a sequential test is over."""
from __future__ import annotations

from typing import Iterable

from ..model import Plan, Result
from ..stats.endings import Endings, Rule, Rules
from ..stats.pairs import Pairs
from ..stats.sprt import Test, TestRequest
from ..stats.standings import leader
from ..store import results
from ..store.left_out import Decided


class CountedGames:
    """The games of a run, which count as the tally counts them by default; and a test of two
    engines, if one is asked for. Results of a folder count, but not those that are played again."""

    def __init__(
        self, plan: Plan, folder: str, again: Iterable[int], asked: TestRequest | None = None
    ) -> None:
        rules, left_out = Rules(), set(again)
        self.engines = list(plan.engines)
        self.endings = Endings(plan, folder, rules)
        self.pairs = Pairs(plan, rules.ways(Rule.OUT))
        self.failed: set[int] = set()  # games that have no result after their try
        index = self.endings.index
        for game, result in results.of_all(plan, folder, is_quiet=True, index=index):
            if result and game not in left_out:
                self.pairs.add(game, self.endings.of(game, result).ending, result)
        index.forget()
        self.test: Test | None = None
        if asked:
            self.decided = Decided(folder, asked.text())
            self.known = self.decided.games(plan.games())
            self.test = Test(self.pairs, asked, self.failed.__contains__, self.known)

    def is_over(self) -> bool:
        """Returns whether there is a test, and it is over."""
        return self.test is not None and self.test.decision is not None

    def awaited(self) -> list[int]:
        """Returns the games without a result for which a test waits."""
        return list(filter(self.test.is_missing, self.test.awaited())) if self.test else []

    def add(self, game: int, result: Result) -> None:
        """Takes a game that has a result."""
        self.pairs.add(game, self.endings.of(game, result).ending, result)
        if self.test:
            self.test.go_on()

    def add_failed(self, game: int) -> None:
        """Takes a game that has no result after its try."""
        self.failed.add(game)
        if self.test:
            self.test.go_on()

    def keep_left_out(self) -> None:
        """Keeps the games that the test has left out, where it is over."""
        if self.test and self.is_over():
            games = self.test.left_out()
            if not self.known.issuperset(games):
                self.decided.add(map(self.pairs.games.name, games))

    def standing(self) -> str:
        """Returns who leads, and what the test says, for the line of progress."""
        from ..report.text import line_of_leader  # which isn't needed elsewhere

        first = leader(self.pairs, self.engines)
        return f"{f'; {line_of_leader(first)}' if first else ''}{self.ratios()}"

    def ratios(self) -> str:
        """Returns what the test says, if there is one, for the line of progress."""
        from ..report.text import ratios_of  # which isn't needed elsewhere

        return f"; {ratios_of(self.test)}" if self.test else ""
