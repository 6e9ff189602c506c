"""The tally for other programs, as JSON."""
from __future__ import annotations

import json
import math
from typing import Any

from ..model import Side
from ..stats.breakdown import PARTS, Part
from ..stats.pairs import PairCounts
from ..stats.scored import Scored
from ..stats.sprt import Test
from ..stats.standings import Standings
from ..stats.summary import EngineRow, PairingRow, Row, Summary, without_result
from ..store.engine_files import replaced_in

ACCEPTED = {None: "go on", 0: "elo0", 1: "elo1"}


def json_of(summary: Summary, test: Test | None = None) -> str:
    """Returns the tally, and a sequential test, as a text."""
    return f"{json.dumps(facts_of(summary, test))}\n"


def facts_of(summary: Summary, test: Test | None = None) -> dict[str, Any]:
    """Returns what the tally has, and a sequential test."""
    counts = summary.counts
    name = counts.games.name
    blames: dict[str, dict[str, int]] = {engine: {} for engine in summary.rows}
    for engine, cause, count in summary.blames():
        blames[engine][cause] = count
    found = {
        "games": counts.games.count,
        "results": counts.have,
        "winners": counts.with_winner(),
        "rule": {way.value: rule.value for way, rule in counts.rules.by_way().items()},
        "black_won": counts.won_by(Side.BLACK),
        "white_won": counts.won_by(Side.WHITE),
        "ended": dict(sorted(counts.descriptions().items())),
        "engines": [of_engine(row, blames[row.name]) for row in summary.order],
        **of_standings(summary.standings()),
        "pairs": [of_pairing(row) for row in summary.played()],
        **{
            f"by_{name}": of_parts(parts(counts))
            for name, parts in PARTS.items()
            if name != "time" or counts.times
        },
        "same": [[name(game) for game in group] for group in counts.pairs.same()],
        "damaged": counts.damaged(),
        "no_result": dict(without_result(counts)),
    }
    replaced = replaced_in(counts.folder)
    if replaced:
        found["replaced"] = [each._asdict() for each in replaced]
    if counts.scored.scorer:
        found["scorer"] = of_scored(counts.scored)
    if test:
        found["sprt"] = of_test(test)
    return found


def of_scored(scored: Scored) -> dict[str, Any]:
    """Returns how many games the scorer has scored, and why others weren't."""
    return {
        "command": scored.scorer,
        "scored": scored.count,
        "other_score": scored.other_score,
        "other_winner": scored.other_winner,
        "by_final_score": scored.by_final_score,
        "not_scored": dict(scored.unscored),
    }


def of_engine(row: EngineRow, blames: dict[str, int]) -> dict[str, Any]:
    """Returns what an engine has against all others."""
    colours = {
        side.colour: {"won": games.won, "lost": games.lost}
        for side, games in zip(Side, row.by_side)
    }
    return {
        "name": row.name,
        "points": row.games.points,
        **of_games(row.games),
        **colours,
        "to_look_into": blames,
        **of_pairs(row.pairs),
    }


def of_pairing(row: PairingRow) -> dict[str, Any]:
    """Returns what two engines have of each other, as the first one sees it."""
    return {"engines": [row.first, row.second], **of_games(row.games), **of_pairs(row.pairs)}


def of_parts(parts: list[Part]) -> list[dict[str, Any]]:
    """Returns parts of the games, each with its score."""
    return [
        {
            "name": part.name,
            "games": part.games,
            "score": part.score,
            "interval": [part.low, part.high],
            **({} if part.mean is None else {"mean": part.mean, "longest": part.longest}),
        }
        for part in parts
    ]


def of_standings(standings: Standings) -> dict[str, Any]:
    """Returns the ratings of the engines, the best one of each group first, and what Black's first
    move is worth."""
    ratings = [
        {
            "engine": engine,
            "group": number,
            "elo": rating.elo,
            "elo_interval": [rating.low, rating.high],
            "better_than_next": better,
        }
        for number, group in enumerate(standings.groups)
        for engine, rating, better in group
    ]
    black = standings.black
    advantage = black and {"elo": black.elo, "elo_interval": [black.low, black.high]}
    return {"ratings": ratings, "black": advantage}


def of_games(games: Row) -> dict[str, int]:
    """Returns how games ended: won, lost, or without a winner, as drawn ones did."""
    return {
        "games": games.all,
        "won": games.won,
        "lost": games.lost,
        "no_winner": games.all - games.decided,
        "drawn": games.drawn,
    }


def of_pairs(found: PairCounts) -> dict[str, Any]:
    """Returns the five counts of pairs, their score and the difference in Elo."""
    rating = found.estimate()
    return {
        "pairs": found.every,
        "pairs_in_interval": sum(found.clusters.values()),
        "score": found.score(),
        "interval": found.interval(),
        "elo": rating and finite(rating.elo),
        "elo_interval": rating and [finite(rating.low), finite(rating.high)],
    }


def finite(elo: float) -> float | None:
    """Returns a difference in Elo; None where it is infinite."""
    return elo if math.isfinite(elo) else None


def of_test(test: Test) -> dict[str, Any]:
    """Returns what a sequential test says."""
    elo0, elo1 = test.differences
    return {
        "engines": test.engines,
        "elo0": elo0,
        "elo1": elo1,
        "accepted": ACCEPTED[test.decision],
        "pairs": test.counts,
        "ratio": test.ratio,
        "exact": test.exact,
        "bounds": test.bounds,
        "seed": None if test.decision is None else test.seed,
        "left_out": list(map(test.pairs.games.name, test.left_out())),
    }
