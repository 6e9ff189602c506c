"""The sections of the page that say how games went: endings, lengths, seconds, openings, the plan.
"""
from __future__ import annotations

import time
from collections import Counter
from typing import Mapping

from ...model import SIDES, Side
from ...play.progress import as_text
from ...stats.breakdown import Part, by_length, by_opening
from ...store.engine_files import replaced_in
from ...store.versions import versions_of
from ..text import verdict_of
from . import charts
from .charts import Share
from .failures import Failures
from .games import ALL_KINDS, Game
from .markup import Child, Html, behind, counted, table, tag
from .rates import ends_of, rate_of
from .standings import in_percent
from .view import View

OTHER_FAILED = "other failed"
BROKEN = ("unfit", "abandoned", "late")  # nobody wins or loses by these, but by the rules for them
MOST_OPENINGS = 500


def when(seconds: float) -> str:
    """Returns a time as all of the page has it: in UTC, as the notes of games."""
    return time.strftime("%Y-%m-%d %H:%M UTC", time.gmtime(seconds))


# ---- how far it is


def state(view: View, failures: Failures) -> list[Child]:
    """Returns how far the tournament is, how fast, and whether something failed."""
    counts, gathered = view.counts, view.gathered
    total, is_done = counts.games.count, counts.have == counts.games.count
    is_going_on = not is_done and view.is_running
    rate = rate_of(gathered, ends_of(gathered)) if is_going_on else None
    facts = [fact("games", f"{counts.have} of {total}", "good" if is_done else None)]
    verdict = verdict_of(view.test) if view.test else ""
    if view.test and verdict:
        facts += [fact(f"the test of {' - '.join(view.test.engines)} is over", verdict, "good")]
    if rate:
        facts += [fact("games a minute", f"{rate.per_minute:.1f}")]
        facts += [fact("left", as_text(rate.minutes_left))]
    if is_going_on:
        facts += [fact("in play", len(gathered.playing))]
    elif not is_done and not verdict:
        facts += [fact("state", "not running", "bad")]
    failed: Child = failures.count
    if failures.count:
        failed = tag("a", failures.count, href="#failures")
    facts += [fact("failures", failed, "bad" if failures.count else "good")]
    if counts.restarted:
        facts += [fact("games with a restart", counts.restarted)]
    have = f"{counts.have} of {total}"
    bar = tag("progress", have, max=total, value=counts.have, aria_label="games with a result")
    playing = [boards_in_play(view)] if is_going_on and gathered.playing else []
    as_of = tag("p", f"as of {when(gathered.now)}", class_="note")
    return [tag("dl", facts, class_="facts"), bar, *playing, *remarks(view), as_of]


def fact(name: str, value: Child, class_: str | None = None) -> Html:
    """Returns a number with its name."""
    return tag("div", tag("dt", name), tag("dd", value), class_=class_)


def boards_in_play(view: View) -> Html:
    """Returns the games in play, whose small boards are the script's."""
    entries = []
    for game in view.gathered.playing:
        name = view.gathered.name(game)
        link = tag("a", name, data_to=f"#game={name}", class_="game")
        entries.append(tag("li", link, f" move {game.length}"))
    return tag("div", tag("h3", "In play"), tag("ul", entries, class_="playing"))


def remarks(view: View) -> list[Child]:
    """Returns what else is to be looked into: replaced engines, games that are the same, and what a
    scorer didn't score."""
    found = [f"{replaced.engine}: {replaced.text}" for replaced in replaced_in(view.asked.folder)]
    again = sum(len(group) - 1 for group in view.counts.pairs.same())
    if again:
        found.append(
            f"{counted(again)} played move by move as an earlier one of the same engines, colours "
            "and opening: they count once in the intervals"
        )
    scored = view.counts.scored
    if scored.scorer:
        found.append(
            f"scored by the scorer: {scored.count}; {scored.other_score} otherwise than by twogtp, "
            f"{scored.other_winner} of them with another winner"
        )
    if scored.unscored:
        found.append(f"not scored, so that twogtp's verdict counts: {len(scored.unscored)}")
    return [tag("ul", [tag("li", text) for text in found], class_="remarks")] if found else []


# ---- how games ended


def endings(view: View) -> Html:
    """Returns the endings of each engine's games."""
    counts = {row.name: Counter[Share]() for row in view.order}
    for game in view.gathered.ended:
        for side, name in zip(SIDES, view.gathered.engines(game)):
            counts[name][share_of(game, side)] += 1
    present = {share for found in counts.values() for share in found}
    kinds = [share for share in all_shares() if share in present]
    rows = [
        [
            row.name,
            tag("td", charts.shares(with_counts(kinds, counts[row.name])), class_="picture"),
            *(counts[row.name][share] or "" for share in kinds),
        ]
        for row in view.order
        if counts[row.name]
    ]
    heads = [
        tag("th", charts.swatch(share.class_), share.name, scope="col", class_="number")
        for share in kinds
    ]
    numbers = range(2, 2 + len(kinds))
    return table(["engine", "", *heads], rows, "games of each engine by endings", "ended", numbers)


def with_counts(kinds: list[Share], counts: Mapping[Share, int]) -> list[Share]:
    """Returns shares with their counts."""
    return [share._replace(games=counts[share]) for share in kinds if counts[share]]


def share_of(game: Game, side: Side) -> Share:
    """Returns how a game ended for a side. Where the other one failed and nobody won, it doesn't
    matter how."""
    if game.winner is None and game.blamed not in (None, side):
        return part_of("", OTHER_FAILED)
    if game.winner is None:
        return part_of("lost" if game.blamed is side else "", game.kind)
    return part_of("won" if game.winner is side else "lost", game.kind)


def part_of(how: str, kind: str) -> Share:
    """Returns the share of games that ended so."""
    class_ = f"end {how or 'none'} {kind.replace(' ', '-')}"
    name = f"{how} by {kind}" if how else kind
    if kind in BROKEN:
        name = f"won, other {kind}" if how == "won" else kind
    return Share(name, 0, class_)


def all_shares() -> list[Share]:
    """Returns all ways in which games end, in the order of bars: won, nobody won, lost."""
    middle = [part_of("", kind) for kind in (*ALL_KINDS, OTHER_FAILED)]
    won, lost = ([part_of(how, kind) for kind in ALL_KINDS] for how in ("won", "lost"))
    return [*won, *middle, *lost[::-1]]


# ---- lengths and seconds


def lengths(view: View) -> list[Child]:
    """Returns how long games are, and Black's score by that."""
    games = view.gathered.ended
    whole = [game.length for game in games if not game.has_failed or game.kind == "forfeit"]
    found = sorted(whole or [game.length for game in games])
    note = "" if len(whole) == len(games) else " Games that were broken off aren't counted here."
    note = note if whole else " All were broken off."
    histogram = charts.Lengths(found)
    text = (
        f"{counted(len(found))}: from {found[0]} to {found[-1]} moves, the middle one "
        f"{found[len(found) // 2]}.{note}"
    )
    rows: list[list[Child]] = [[histogram.name(each), each.games] for each in histogram.bins]
    return [
        histogram.chart(),
        tag("p", text, class_="note"),
        behind("the numbers", table(["moves", "games"], rows, "games by length", None, (1,))),
        behind(
            "Black's score by length, of all games that count, broken off or not",
            parts_table("length", by_length(view.counts)),
        ),
    ]


def parts_table(name: str, parts: list[Part]) -> Html:
    """Returns Black's score in parts of the games."""
    rows: list[list[Child]] = [
        [part.name, part.games, f"{100 * part.score:.1f}", in_percent(part.low, part.high)]
        for part in parts
    ]
    heads = [name, "games", "Black's score, %", "95 % interval"]
    return table(heads, rows, f"Black's score by {name}, of all games that count", None, (1, 2, 3))


def openings(view: View) -> list[Child]:
    """Returns Black's score after each opening."""
    parts = by_opening(view.counts)
    more = len(parts) - MOST_OPENINGS
    note = tag("p", f"{more} more by tally --by opening", class_="note") if more > 0 else None
    return [parts_table("opening", parts[:MOST_OPENINGS]), note]


def times(view: View) -> Html:
    """Returns how long the engines thought about a move, as the tally counts moves."""
    counts = {row.name: Counter[int]() for row in view.order}
    first = view.gathered.reader.first
    for game in view.gathered.ended:
        noted = game.noted
        if noted.times:
            for at, side in enumerate((first, first.other)):
                found = counts[view.gathered.engines(game)[side]]
                found.update(noted.times[at::2])
                found.update(noted.others[side])
    milliseconds = {
        name: {each - 1: found[each] for each in sorted(found) if each}
        for name, found in counts.items()
    }
    rows = [row_of_times(name, found) for name, found in milliseconds.items() if found]
    heads = ["engine", "", "moves", "mean", "half below", "90 % below", "99 % below", "longest"]
    return table(heads, rows, "seconds a move", None, range(2, 8))


def row_of_times(name: str, times: Mapping[int, int]) -> list[Child]:
    """Returns the row of an engine, of whose moves so many took so many milliseconds."""
    total = sum(times.values())
    mean = sum(each * count for each, count in times.items()) / total
    quantiles = [quantile(times, share * total) for share in (0.5, 0.9, 0.99, 1)]
    picture = tag("td", charts.move_times(times), class_="picture")
    return [name, picture, total, *map(in_seconds, (mean, *quantiles))]


def in_seconds(milliseconds: float) -> str:
    """Returns seconds as the tally has them, with more digits where it would have none."""
    return f"{milliseconds / 1000:.{5 if 0 < milliseconds < 0.95 else 3}f}"


def quantile(times: Mapping[int, int], wanted: float) -> int:
    """Returns the milliseconds up to which so many moves took. The shortest ones come first."""
    seen = 0
    for milliseconds, count in times.items():
        seen += count
        if seen >= wanted:
            return milliseconds
    return 0


# ---- over time, and the plan


def progress(view: View) -> list[Child]:
    """Returns the results over time, and by machine."""
    ends = ends_of(view.gathered)
    failed = sorted(game.ended for game in view.gathered.ended if game.has_failed)
    names = [when(at) for at in (ends[0], (ends[0] + ends[-1]) / 2, ends[-1])]
    hosts = Counter(game.noted.host or "unknown" for game in view.gathered.ended)
    rows: list[list[Child]] = [[host, count] for host, count in hosts.most_common()]
    return [
        charts.progress(ends, failed, view.counts.games.count, names),
        charts.legend([("course", "games with a result"), ("failure", "failures")]),
        behind("games by machine", table(["machine", "games"], rows, "machines", None, (1,))),
    ]


def versions_in(view: View) -> dict[str, str]:
    """Returns the versions of the engines and of twogtp, as they were tried on the machines."""
    found: dict[str, set[str]] = {}
    for host in {game.noted.host for game in view.gathered.ended if game.noted.host}:
        for program, version in versions_of(f"{view.asked.folder}/tried/{host}").items():
            found.setdefault(program, set()).update([version] if version else [])
    return {program: ", ".join(sorted(versions)) for program, versions in found.items()}


def plan(view: View) -> list[Child]:
    """Returns what was played."""
    own, setup, versions = view.plan, view.gathered.setup, versions_in(view)
    rows: list[list[Child]] = [
        [name, tag("td", tag("code", engine.command)), versions.get(f"engine {name}", "")]
        for name, engine in own.engines.items()
    ]
    limits = {"a game": own.limit, "a move": own.move_limit, "another answer": own.start_limit}
    facts: dict[str, Child] = {
        "board": f"{view.gathered.size}x{view.gathered.size}",
        "komi": setup.komi,
        "handicap": setup.handicap,
        "most moves": setup.max_moves,
        "seeds": own.seeds,
        "openings": len(own.openings) or "none",
        "games": f"{own.gauntlet} against each" if own.gauntlet else "all against all",
        "clock": own.clock or "none",
        "limits": ", ".join(f"{limit} s {what}" for what, limit in limits.items() if limit),
        "scorer": own.scorer or "none",
        "options": " ".join(own.options) or "none",
        "twogtp": versions.get("twogtp", "unknown"),
    }
    return [
        tag("dl", [fact(name, value) for name, value in facts.items()], class_="plan"),
        table(["engine", "command", "version"], rows, "engines", "commands"),
    ]
