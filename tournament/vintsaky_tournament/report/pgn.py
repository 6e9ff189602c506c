"""The results in PGN, for programs that rate players."""
from __future__ import annotations

from typing import Iterator

from ..model import FORFEITS, Ending, Way
from ..relay.clock import read_clock, written
from ..stats.records import Record, Records, Terms
from .times import time_control

TERMINATIONS = {  # of PGN; where a way isn't among them, the game is unterminated
    Way.WON: "normal",
    Way.RESIGNED: "normal",
    Way.DRAWN: "normal",
    Way.LATE: "time forfeit",
    Way.TIME: "time forfeit",
    Way.ABANDONED: "abandoned",
}


def as_pgn(records: Records, event: str) -> Iterator[str]:
    """Yields each game in PGN: without its moves, which are no chess moves, but with all else in
    tags."""
    clock = records.terms.clock
    control = time_control(read_clock(clock)) if clock else None
    first, end = text_of({"Event": quoted(event)}), text_of(
        tags_of_all(records.terms, records.rule)
    )
    for record in records:
        points = points_of(record.ending)
        own = text_of(tags_of(record, points, control))
        yield f"{first}{own}{end}\n{points}\n"


def tags_of(record: Record, points: str, control: str | None) -> dict[str, object]:
    """Returns the tags of a game, by its points and the clock as PGN has it; None for what isn't
    known."""
    date, _, time = (record.date or "").replace("-", ".").removesuffix("Z").partition("T")
    return {
        "Site": quoted(record.host or "?"),
        "Date": date or "????.??.??",
        "Round": record.seed,
        "White": record.white,
        "Black": record.black,
        "Result": points,
        "UTCDate": date or None,
        "UTCTime": time or None,
        "TimeControl": control,
        "Termination": termination(record.ending),
        "Verdict": record.verdict,
        "Moves": record.moves,
        "Opening": record.opening,
        "BlackSeconds": record.black_seconds,
        "WhiteSeconds": record.white_seconds,
        "BlackVersion": quoted(record.black_version),
        "WhiteVersion": quoted(record.white_version),
        "ControllerVersion": quoted(record.twogtp_version),
    }


def tags_of_all(terms: Terms, rule: str) -> dict[str, object]:
    """Returns the last tags, which all games have."""
    return {
        "Rule": rule,
        "Size": terms.size,
        "Komi": written(terms.komi),
        "Handicap": terms.handicap or None,
        "Ruleset": terms.ruleset,
        "Clock": terms.clock,
        "MoveLimit": terms.move_limit,
    }


def text_of(tags: dict[str, object]) -> str:
    """Returns tags as lines."""
    lines = [f'[{name} "{value}"]\n' for name, value in tags.items() if value is not None]
    return "".join(lines)


def points_of(ending: Ending) -> str:
    """Returns the points as PGN has them: White's first."""
    if ending.way is Way.DRAWN:
        return "1/2-1/2"
    if ending.winner is None:
        return "*"
    return ("0-1", "1-0")[ending.winner]


def termination(ending: Ending) -> str:
    """Returns how PGN says that a game ended so."""
    if ending.way is Way.FORFEITED:
        return "rules infraction" if ending.cause in FORFEITS else "adjudication"
    return TERMINATIONS.get(ending.way, "unterminated")


def quoted(text: str | None) -> str | None:
    """Returns a text, if there is one, as it is within quotes. Only those of machines and programs
    need it, and the name of a folder."""
    return text and text.replace("\\", "\\\\").replace('"', '\\"')
