"""The tally as text."""
from __future__ import annotations

import math
from functools import lru_cache
from typing import Iterator, Sequence

from ..model import Side, Way
from ..store.engine_files import replaced_in
from ..stats import scores
from ..stats.endings import Rule
from ..stats.pairs import PairCounts
from ..stats.scored import Scored
from ..stats.scores import Cluster
from ..stats.sprt import Test
from ..stats.standings import Leader
from ..stats.summary import Best, EngineRow, PairingRow, Row, Summary, without_result

MOST_GROUPS = 10  # of games that are the same
SURE, MOST_SURE = 0.95, 0.999  # from which chance on an engine is called the best, and what is said
NO_PAIRS = "    -  -                 -"


class Table:
    """The lines of a tally."""

    def __init__(self, summary: Summary) -> None:
        self.summary, self.counts = summary, summary.counts
        self.width = max(6, *map(len, summary.rows))

    def lines(self) -> Iterator[str]:
        """Yields all lines. Those of the games without a result are made one after the other."""
        have, all_games = self.counts.have, self.counts.games.count
        with_winner = self.counts.with_winner()
        rules = self.counts.rules.text()
        yield f"{have} of {all_games} games have a result, {with_winner} have a winner; {rules}"
        yield ""
        yield from self.of_engines()
        yield ""
        yield from self.of_standings()
        yield from self.of_pairs()
        yield ""
        yield from self.of_all()
        yield from self.of_same()
        blames = [f"  {engine}: {cause}: {count}" for engine, cause, count in self.summary.blames()]
        replaced = replaced_in(self.counts.folder)
        blames += [f"  {found.engine}: {found.text}" for found in replaced]
        yield from ["to look into:", *blames] if blames else []
        if self.counts.missing:
            yield f"no result: {self.counts.missing}"
        yield from (f"  {name}: {reason}" for name, reason in without_result(self.counts))

    def of_engines(self) -> Iterator[str]:
        """Yields a line for each engine, the best first."""
        head = "points    won  percent   with Black     with White"
        yield f"{'engine':{self.width}}  {head}"
        for row in self.summary.order:
            games, (black, white) = row.games, row.by_side
            counts = f"{points(games):>6}  {games.won:5}    {percent(games)}"
            yield f"{row.name:{self.width}}  {counts}   {won_of(black):13}  {won_of(white)}"

    def of_standings(self) -> Iterator[str]:
        """Yields a line for each engine that is rated, and what Black's first move is worth."""
        standings = self.summary.standings()
        if standings.are_too_many:
            yield from (f"no ratings: {len(self.summary.rows)} engines are too many", "")
        if not standings.groups:
            return
        yield f"{'engine':{self.width}}     Elo  95 % interval   better than the next"
        for number, group in enumerate(standings.groups):
            if number:
                yield "no games join these with those above:"
            for engine, rating, better in group:
                interval = f"{whole(rating.low)} to {whole(rating.high)}"
                chance = "" if better is None else f"{100 * better:5.1f} %"
                line = f"{engine:{self.width}}  {whole(rating.elo):>6}  {interval:14}  {chance}"
                yield line.rstrip()
        if black := standings.black:
            interval = f"{whole(black.low)} to {whole(black.high)}"
            yield f"Black's advantage: {whole(black.elo)} Elo, {interval}"
        yield ""

    def of_pairs(self) -> Iterator[str]:
        """Yields a line for each two engines, and before them one for each engine that has more
        than one opponent."""
        rows: list[EngineRow | PairingRow] = [
            *(row for row in self.summary.order if row.opponents > 1),
            *self.summary.played(),
        ]
        width = max([2 * self.width + 3, *(len(self.names(row)) for row in rows)])
        count_width = max(4, *(len(str(max(row.pairs.every))) for row in rows))
        won_width = max(5, *(len(record(row.games)) for row in rows))
        outcomes = " ".join(
            f"{outcome:>{count_width}}" for outcome in ("0", "0.5", "1", "1.5", "2")
        )
        columns = f"no winner   {outcomes}  score  95 % interval   Elo  95 % interval"
        yield f"{'pair':{width}}  {'won':>{won_width}}  {columns}"
        for row in rows:
            games, found = row.games, row.pairs
            counts = " ".join([f"{count:{count_width}}" for count in found.every])
            score = of_score(tuple(found.every), tuple(sorted(found.clusters.items())))
            won = f"{record(games):>{won_width}}  {games.all - games.decided:9}"
            yield f"{self.names(row):{width}}  {won}   {counts}  {score}"

    def names(self, row: EngineRow | PairingRow) -> str:
        """Returns the engines of a line. One of an earlier plan may be named as all are."""
        if isinstance(row, PairingRow):
            return f"{row.first} - {row.second}"
        return f"{row.name} - all{' others' if 'all' in self.summary.rows else ''}"

    def of_all(self) -> Iterator[str]:
        """Yields what there is of all games together."""
        counts = self.counts
        decided = {way: counts.with_winner(way) for way in (Way.ABANDONED, Way.LATE)}
        lost = "".join(f", {count} {way.value}" for way, count in decided.items() if count)
        on_time = counts.ended(Way.TIME)
        lost = (f", {on_time} on time" if on_time else "") + lost
        resigned, forfeited = counts.ended(Way.RESIGNED), counts.ended(Way.FORFEITED)
        won = f"Black won {counts.won_by(Side.BLACK)}, White {counts.won_by(Side.WHITE)}"
        yield f"{won}; {resigned} by resignation, {forfeited} by forfeit{lost}"
        left = {way: counts.ended(way) - count for way, count in decided.items()}
        drawn = f"{counts.ended(Way.DRAWN)} drawn, {counts.ended(Way.LIMIT)} at the limit of moves"
        failed = f"{counts.ended(Way.UNFIT)} unfit, {left[Way.ABANDONED]} abandoned"
        late = f", {left[Way.LATE]} late" if left[Way.LATE] else ""
        yield f"no winner: {drawn}, {failed}{late}"
        out = {way: counts.ended(way) for way in counts.rules.ways(Rule.OUT)}
        if any(out.values()):
            said = ", ".join(f"{count} {way.value}" for way, count in out.items() if count)
            yield f"out, and so in no pair: {said}"
        if counts.unknown and counts.rules.late is not counts.rules.abandoned:
            yield f"abandoned, and perhaps late, since there are no notes: {counts.unknown}"
        if counts.scored.scorer:
            yield from of_scored(counts.scored)
        if counts.restarted:
            yield f"games with a restart: {counts.restarted}"

    def of_same(self) -> Iterator[str]:
        """Yields the games that are the same, move by move."""
        groups, name = self.counts.pairs.same(), self.counts.games.name
        if not groups:
            return
        again = sum(len(group) - 1 for group in groups)
        yield (
            "the same, move by move, as an earlier game of the same engines, colours and opening, "
            f"which count once in the intervals: {again}"
        )
        for first, second, *others in groups[:MOST_GROUPS]:
            more = f" and {len(others)} other{'s' if len(others) > 1 else ''}" if others else ""
            yield f"  {name(first)}: {name(second)}{more}"
        if len(groups) > MOST_GROUPS:
            yield f"  and so on: {len(groups)} such games were played again"


def of_scored(scored: Scored) -> Iterator[str]:
    """Yields how many games the scorer has scored, how many of them otherwise than twogtp, and why
    others weren't."""
    other = f"{scored.other_score} otherwise than by twogtp, {scored.other_winner} of them with"
    yield f"scored by the scorer: {scored.count}; {other} another winner"
    if scored.by_final_score:
        yield f"scored by its final_score, since it names no dead stones: {scored.by_final_score}"
    if scored.unscored:
        yield f"not scored, so that twogtp's verdict counts: {len(scored.unscored)}"
        for game, reason in scored.unscored[:MOST_GROUPS]:
            yield f"  {game}: {reason}"


def points(games: Row) -> str:
    """Returns the points of games."""
    return f"{(2 * games.won + games.drawn) // 2}{'.5' if games.drawn % 2 else ''}"


def percent(games: Row) -> str:
    """Returns the share of games that were won of those that have a winner, in percent."""
    return f"{100 * games.won / games.decided:5.1f}" if games.decided else "    -"


def record(games: Row) -> str:
    """Returns how many games were won and lost."""
    return f"{games.won}-{games.lost}"


def won_of(games: Row) -> str:
    """Returns how many games were won of those that have a winner."""
    return f"{games.won} of {games.decided}"


@lru_cache(maxsize=4096)  # of many engines with few seeds most are the same
def of_score(every: tuple[int, ...], clusters: tuple[tuple[Cluster, int], ...]) -> str:
    """Returns the score of pairs in percent, and the difference in Elo, each with its interval."""
    found = PairCounts(every, dict(clusters))
    score, interval, rating = found.score(), found.interval(), found.estimate()
    if score is None or interval is None or rating is None:
        return NO_PAIRS
    scored = " to ".join(f"{100 * end:.1f}" for end in interval)
    elo = f"{whole(rating.low)} to {whole(rating.high)}"
    return f"{100 * score:5.1f}  {scored:13}  {whole(rating.elo):>4}  {elo}"


def whole(elo: float) -> str:
    """Returns a difference in Elo without decimals."""
    return f"{elo:+}" if math.isinf(elo) else f"{round(elo):+}"


def line_of_best(best: Best) -> str:
    """Returns who is best, and how sure that is."""
    engine, other, better = best
    sure = f"{100 * better:.1f} %" if better < MOST_SURE else f"more than {100 * MOST_SURE:.1f} %"
    if better >= SURE:
        return f"{engine} is best: it is {sure} sure that it is stronger than the next, {other}"
    return f"{engine} leads, but it is only {sure} sure that it is stronger than the next, {other}"


def line_of_leader(first: Leader) -> str:
    """Returns who leads."""
    low, high = whole(first.rating.low), whole(first.rating.high)
    elo = f"{whole(first.rating.elo)} Elo ({low} to {high})"
    return f"{first.engine} leads with {100 * first.score:.1f} %, {elo}"


def ratios_of(test: Test) -> str:
    """Returns the ratios of a sequential test, and their bounds."""
    bounds = " and ".join(f"{bound:.2f}" for bound in test.bounds)
    return f"log likelihood ratio {test.ratio:.2f}, exact {test.exact:.2f}, bounds {bounds}"


def verdict_of(test: Test) -> str:
    """Returns what a sequential test has accepted, and at which pair; an empty text before that."""
    if test.decision is None:
        return ""
    low, high = (f"{difference:g} Elo" for difference in test.differences)
    accepted = (f"{low} accepted, not {high}", f"{high} accepted, not {low}")
    return f"{accepted[test.decision]}, at the pair of seed {test.seed}"


def line_of_test(test: Test, task: str = "") -> str:
    """Returns what a sequential test says. If the task of a run is named that says it, others may
    know of other games that are left out."""
    said = verdict_of(test) or "go on"
    count = f"{sum(test.counts)} pairs{lacking(test.counts)}"
    games = ", ".join(map(test.pairs.games.name, test.left_out()))
    known = f"as far as {task} knows, " if task else ""
    left_out = f"; left out, {known}without a result after their try: {games}" if games else ""
    return f"{' - '.join(test.engines)}: {said}: {count}, {ratios_of(test)}{left_out}"


def lacking(counts: Sequence[int]) -> str:
    """Returns which pairs are needed before a test says anything; an empty text where none are."""
    if sum(counts) < scores.FEWEST:
        return f" (at least {scores.FEWEST} are needed)"
    others = scores.others(counts)
    if others < scores.FEWEST_OTHERS:
        return f" ({others} unlike most; at least {scores.FEWEST_OTHERS} are needed)"
    return ""
