"""The sections of the page that say who is better: ranking, crosstable, pairs, sequential test."""
from __future__ import annotations

from typing import Mapping, Sequence
from urllib.parse import quote

from ...model import SIDES, Side, Way
from ...stats.breakdown import Part, by_colour
from ...stats.endings import Rule, Rules
from ...stats.pairs import Pairing
from ...stats.summary import PairingRow, Row
from ..text import line_of_best, line_of_test, percent, points, record, whole
from . import charts
from .courses import Course, course_of
from .markup import Child, Html, behind, table, tag
from .view import Rated, View

MOST_COURSES = 45  # pairs of engines whose score is drawn
MANY = 12  # engines from which on a crosstable is narrow
OUTCOMES = ("0", "0.5", "1", "1.5", "2")
FAILED_GAMES = {
    Way.ABANDONED: "an abandoned game",
    Way.LATE: "a late game",
    Way.UNFIT: "a game whose setup an engine refuses",
}
COUNTS_AS = {
    Rule.LOSES: "counts as lost by the engine that failed",
    Rule.HALF: "counts as half a point for each engine",
    Rule.OUT: "is left out, with its pair",
}


def by_engine(engine: str, text: Child, other: str = "") -> Html:
    """Returns a link to the games of an engine, perhaps only to those against another one."""
    address = f"#engine={quote(engine)}" + (f"&other={quote(other)}" if other else "")
    return tag("a", text, data_to=address)


def to(low: str, high: str) -> str:
    """Returns an interval."""
    return f"{low} to {high}"


def in_percent(low: float, high: float) -> str:
    """Returns an interval of scores."""
    return to(f"{100 * low:.1f}", f"{100 * high:.1f}")


# ---- ranking


def ranking(view: View) -> list[Child]:
    """Returns the engines, the best one first, with their Elo as the tally has it."""
    bars = charts.Ratings(rated.rating for rated in view.ranking if rated.rating)
    parts = {part.name: part for part in by_colour(view.counts)}
    rows = [rank(place, rated, bars, parts) for place, rated in enumerate(view.ranking, 1)]
    heads: list[Child] = [
        *("", "engine", "Elo", "95 % interval", "better than the next"),
        tag("th", bars.axis(), scope="col", class_="picture"),
        *("points", "games", "won", "lost", "no winner", "won of decided, %"),
        *("score as Black, %", "as White, %"),
    ]
    numbers = (0, 2, 3, 4, 6, 7, 8, 9, 10, 11, 12, 13)
    best = tag("p", line_of_best(view.best), class_="best") if view.best else None
    return [
        best,
        table(heads, rows, "engines, the best one first", "ranking", numbers),
        behind("what the numbers mean", tag("p", explained(view), class_="note")),
    ]


def rank(place: int, rated: Rated, bars: charts.Ratings, parts: Mapping[str, Part]) -> list[Child]:
    """Returns the row of an engine."""
    games, rating, name = rated.row.games, rated.rating, rated.row.name
    colours = [parts.get(f"{name} {side.colour}") for side in SIDES]
    better = "" if rated.better is None else f"{100 * rated.better:.1f} %"
    return [
        tag("td", place, class_="number"),
        tag("th", by_engine(name, name), scope="row"),
        whole(rating.elo) if rating else "-",
        to(whole(rating.low), whole(rating.high)) if rating else "-",
        better,
        tag("td", bars.bar(rating) if rating else None, class_="picture"),
        *(points(games), games.all, games.won, games.lost, games.all - games.decided),
        percent(games).strip(),
        *(f"{100 * part.score:.1f}" if part else "-" for part in colours),
    ]


def explained(view: View) -> str:
    """Returns what the numbers of the ranking mean."""
    parts = []
    if view.standings.groups:
        parts.append(
            "Elo is from the mean of the engines, by maximum likelihood, of whole pairs of games."
        )
    elif view.standings.are_too_many:
        parts.append(f"There are no ratings: {len(view.summary.rows)} engines are too many.")
    else:
        parts.append("Elo is the difference to the other engine, of whole pairs of games.")
    if len(view.standings.groups) > 1:
        parts.append("Engines that no games join are rated apart, one group below the other.")
    parts.append("Bars are its 95 % intervals.")
    parts.append("Better than the next: how likely an engine is stronger than the one below it.")
    parts.append("Pairs, below, are the same question about two engines, by their own games alone.")
    if view.test:
        parts.append("The sequential test says only whether its games may end.")
    black = view.standings.black
    if black:
        interval = to(whole(black.low), whole(black.high))
        parts.append(f"Black's advantage is {whole(black.elo)} Elo, {interval}.")
    parts.append(f"Where a side failed, {in_words(view.counts.rules)}.")
    return " ".join(parts)


def in_words(rules: Rules) -> str:
    """Returns what the games count in which a side failed."""
    found = dict.fromkeys(rules.by_way().values())
    named = {rule: " or ".join(FAILED_GAMES[way] for way in rules.ways(rule)) for rule in found}
    return "; ".join(f"{games} {COUNTS_AS[rule]}" for rule, games in named.items())


# ---- crosstable


def crosstable(view: View) -> list[Child]:
    """Returns what each engine has against each other one."""
    names = [row.name for row in view.order]
    heads: list[Child] = [
        "",
        *(tag("th", tag("span", name), scope="col", class_="turned") for name in names),
    ]
    sides = colours_of(view)
    rows = [
        [tag("th", one, scope="row"), *(crossing(view, sides, one, other) for other in names)]
        for one in names
    ]
    class_ = "cross narrow" if len(names) >= MANY else "cross"
    keys = [tag("span", f"{10 * at} %", class_=f"key s{at}") for at in (0, 3, 5, 7, 10)]
    text = (
        "Games that the engine of the row won and lost; B as Black, W as White; none: nobody won. "
        "The colour is the score of whole pairs: "
    )
    caption = "won and lost by the engine of the row"
    return [table(heads, rows, caption, class_), tag("p", text, keys, class_="note")]


def colours_of(view: View) -> dict[tuple[str, str, Side], Row]:
    """Returns the games of each engine with each colour against each other one."""
    found: dict[tuple[str, str, Side], Row] = {}
    for engines, endings in zip(view.counts.games.sides, view.counts.endings):
        for side in SIDES:
            row = found[engines[side], engines[side.other], side] = Row()
            for ending, count in endings.items():
                row.add(ending, side, count)
    return found


def crossing(view: View, sides: Mapping[tuple[str, str, Side], Row], one: str, other: str) -> Html:
    """Returns the cell of two engines."""
    pairing = view.summary.pairings.get((one, other))
    if pairing is None or not pairing.games.all:
        return tag("td", "·" if one == other else None, class_="none")
    games = pairing.games
    undecided = games.all - games.decided
    score = pairing.pairs.score()
    shade = "cell" if score is None else f"cell s{round(10 * score)}"
    said = (
        f"{one} against {other}: {games.won} won, {games.lost} lost, {undecided} without a winner"
    )
    return tag(
        "td",
        by_engine(one, record(games), other),
        tag("small", f" {undecided} none") if undecided else None,
        tag("div", [of_colour(side, sides[one, other, side]) for side in SIDES]),
        class_=shade,
        title=said,
    )


def of_colour(side: Side, games: Row) -> Html:
    """Returns the games with one colour."""
    undecided = games.all - games.decided
    said = f"as {side.colour}: {games.won} won, {games.lost} lost, {undecided} without a winner"
    return tag("span", f"{'BW'[side]} {record(games)}", title=said)


# ---- pairs


def pairs(view: View) -> list[Child]:
    """Returns the scores of each two engines after each pair, and the table of the tally."""
    played = [row for row in view.summary.played() if any(row.pairs.every)]
    closest = sorted(played, key=lambda row: abs((row.pairs.score() or 0.0) - 0.5))[:MOST_COURSES]
    text = (
        "The score of the engine named first, in percent, after each pair of games with the same "
        "seed; the band is the 95 % interval."
    )
    if len(played) > len(closest):
        text += f" Of {len(played)} pairs of engines the {len(closest)} closest ones are drawn."
    heads = [
        *("pair", "won", "no winner", *OUTCOMES),
        *("score", "95 % interval", "Elo", "95 % interval"),
    ]
    rows = [pair_row(row) for row in played]
    return [
        tag("p", text, class_="note"),
        tag("div", [course(view, row) for row in closest], class_="many"),
        behind(
            "all pairs, as tally has them", table(heads, rows, "pairs of games", None, range(1, 12))
        ),
    ]


def pair_row(row: PairingRow) -> list[Child]:
    """Returns the row of two engines, whose pairs are there."""
    score, interval, rating = row.pairs.score(), row.pairs.interval(), row.pairs.estimate()
    assert score is not None and interval and rating
    return [
        f"{row.first} - {row.second}",
        record(row.games),
        row.games.all - row.games.decided,
        *row.pairs.every,
        *(f"{100 * score:.1f}", in_percent(*interval), whole(rating.elo)),
        to(whole(rating.low), whole(rating.high)),
    ]


def course(view: View, row: PairingRow) -> Html:
    """Returns the chart of two engines."""
    pairing = pairing_of(view, row)
    drawn = course_of(view.counts.pairs, pairing, pairing.first != row.first)
    caption = tag("figcaption", by_engine(row.first, f"{row.first} - {row.second}", row.second))
    return tag("figure", caption, charts.score_course(row.first, row.second, drawn))


def pairing_of(view: View, row: PairingRow) -> Pairing:
    """Returns the pairing of two engines, in the plan's order."""
    engines = {row.first, row.second}
    (pairing,) = (each for each in view.counts.pairs.pairings() if set(each[:2]) == engines)
    return pairing


# ---- sequential test


def sequential(test: Course) -> list[Child]:
    """Returns a sequential test: its course and what it says, as the tally has it."""
    rows: Sequence[Sequence[Child]] = [["pairs", *test.counts]]
    entries = [
        ("course", "by mean and variance"),
        ("course second", "exact"),
        ("bound", "bounds: both have to pass the same one"),
    ]
    counts = table(["points", *OUTCOMES], rows, "pairs by points", None, range(1, 6))
    return [
        charts.test_course(test, test.points()),
        tag("p", tag("strong", line_of_test(test))),
        charts.legend(entries),
        behind("the five counts of pairs", counts),
    ]
