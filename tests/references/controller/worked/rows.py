"""What matches that are worked out by hand are made of."""
from __future__ import annotations

from typing import Any, Iterator, Mapping, NamedTuple, Optional, Sequence, Union

from ...engine.game import POSITIONAL
from ...engine.policies import PolicyName
from ...engine.values import BLACK, WHITE, Colour

from ..engines import Engine, Ours, Planned, Timed
from ..matches import Match


Texts = Union[str, Sequence[str]]  # the texts of which a line is one, or the only one


class Row(NamedTuple):
    """A match, and its result."""

    match: Match
    status: Optional[int]  # None where the match waits for ever
    output: str
    # each line on the standard error: the texts of which it is one, as that is a question of time
    errors: Sequence[Sequence[str]] = ()
    # what the engines of these sides are sent. Of an engine that misbehaves this ends where it does
    sent: Mapping[Colour, str] = {}


FIRST = Ours(PolicyName.FIRST)  # plays A1, B1, C1 and so on
POSITIONAL_FIRST = Ours(PolicyName.FIRST, rule=POSITIONAL)
NO = r"?<id>_no\n\n"
SETUP = "1 boardsize 9\n2 komi 6.5\n3 clear_board\n"  # what an engine is sent first
PASSED = "W+6.5 moves 2 restarts 0 0"

# The causes of --why, and what is unanswered. The commands of a script are sent at once, so a side
# owes all that it didn't answer yet.
NO_REPLY = "not a GTP reply (it begins with neither = nor ?)"
OVERLONG = "no end of a reply in 8192 bytes"
WRONG_ID = "a reply without the awaited id"
UNASKED = "a reply to nothing that was asked"
UNFIT = "unfit: the command failed, or was answered wrongly"
NO_POINT = "neither a vertex nor resign"
KEPT_MOVE = "the refused move was not taken back: the other side forfeits"
REFUSED = "the play was refused"
ALL = '3 unanswered, the first "1 boardsize 9"'
ALL_BUT_ONE = '2 unanswered, the first "2 komi 6.5"'
GENMOVE = '1 unanswered, "4 genmove b"'
SMALL: dict[str, Any] = {"size": 2, "komi": "0", "most_moves": 10}


# ---- engines


def first(fault: str) -> Ours:
    """Returns our engine that plays A1, B1, C1 and so on, with this fault."""
    return Ours(PolicyName.FIRST, fault=fault)


def book(text: str, fault: str = "none") -> Ours:
    """Returns our engine that plays by this book."""
    return Ours(PolicyName.BOOK, book=text, fault=fault)


def passing(plan: str = "-", style: str = "<reply>") -> Planned:
    """Returns an engine that always passes, and misbehaves as this plan of faulty.py says."""
    return Planned(1, 1, style, plan)


def timed(place: str, seconds: int = 2) -> Timed:
    """Returns an engine that passes, and is silent from this place on, behind `timeout`."""
    return Timed(seconds, 1, 1, "<reply>", f"*/{place}//ends:124")


def playing(vertices: str) -> Planned:
    """Returns an engine that plays these vertices."""
    places = enumerate(vertices.split(), 1)
    return passing(",".join(rf"1/g{number}/=<id>_{vertex}\n\n/on" for number, vertex in places))


def refusing(*places: str) -> Planned:
    """Returns an engine that always passes, and refuses the plays at these places of its lives."""
    return passing(",".join(f"{place}/{NO}/refuses" for place in places))


# ---- rows


def match(black: Engine, white: Engine, **values: Any) -> Match:
    """Returns a match on 9x9 with one restart, where nothing else is given."""
    options: dict[str, Any] = {"size": 9, "restarts": 1, **values}
    return Match({BLACK: black, WHITE: white}, **options)


def game(
    line: str,
    black: Engine,
    white: Engine,
    *errors: Texts,
    sent: Optional[Mapping[Colour, str]] = None,
    **values: Any,
) -> Row:
    """Returns a match of one game that ends with this line.

    Where something is reported, the match is played with `--why`.
    """
    texts = [[text] if isinstance(text, str) else text for text in errors]
    return Row(
        match(black, white, **{"why": bool(errors), **values}),
        1 if line.startswith(("abandoned", "unfit")) else 0,
        f"game 1: {line}\n",
        [[f"twogtp: game 1: {text}\n" for text in line_texts] for line_texts in texts],
        sent or {},
    )


def small(line: str, black: Engine, white: Engine, *errors: Texts, **values: Any) -> Row:
    """Returns the same on 2x2 without komi, and with at most ten moves."""
    return game(line, black, white, *errors, **SMALL, **values)


def both_sides(
    engine: Engine, other: Engine, black: str, white: str, **values: Any
) -> Iterator[Row]:
    """Yields two matches with this engine, as Black and as White, that end with these lines."""
    yield game(black, engine, other, **values)
    yield game(white, other, engine, **values)


def lost(owed: str, cause: str, texts: Texts, side: Colour = BLACK) -> list[str]:
    """Returns the line of a side that is lost, owes this and wrote this, or one of these texts."""
    wrote = [texts] if isinstance(texts, str) else texts
    return [f'{side}: {owed}: {cause}; it wrote "{text}"' for text in wrote]
