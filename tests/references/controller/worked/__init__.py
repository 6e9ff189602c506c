"""Matches worked out by hand: what the controller has to make of engines, right ones and others.

None of this was taken from the program or from the reference: it was worked out from
docs/controller.md, docs/matches.md, docs/protocol.md and README.md, and much of it is there.
tests/match plays each row by the built `twogtp` and by the reference.

An engine that misbehaves has a plan of faulty.py. The engine `passing()` always passes, so there
are few moves to work out: on 9x9 White wins two passes by the komi of 6.5, and with two stones of
handicap Black by 81 - 6.5.
"""
from __future__ import annotations

from ...engine.game import SIMPLE
from ...engine.values import BLACK, WHITE

from ..engines import Engine, Other, Ours, Planned

from . import failures, games, refusals
from .rows import Row

KINDS = [
    games.whole_games,
    games.games_that_are_shown,
    games.broken_games,
    games.broken_games_with_captures_or_handicap,
    games.sides_that_go_down,
    games.sides_that_go_down_at_a_move,
    games.replies_to_a_genmove,
    games.replies_to_the_script,
    games.engines_that_are_asked_to_quit,
    games.engines_that_make_the_match_wait,
    games.silent_engines_behind_timeout,
    refusals.refused_moves,
    refusals.what_is_sent_after_refusals,
    refusals.refusals_by_positional_ko,
    refusals.refusals_and_restarts,
    refusals.undoes_that_fail,
    refusals.undoes_that_are_not_answered,
    refusals.sides_that_refuse_and_go_down,
    refusals.retakes,
    refusals.lines_of_retakes,
    refusals.retakes_and_losses,
    failures.sides_that_are_not_started,
    failures.answers_that_are_no_moves,
    failures.illegal_moves,
    failures.no_replies,
    failures.what_is_read_with_a_reply,
    failures.programs_without_gtp,
    failures.no_replies_and_answers,
    failures.no_replies_in_a_long_script,
    failures.commands_that_fail,
    failures.broken_pipes,
    failures.endings_of_engines,
    failures.writes_that_fail,
    failures.values_that_are_not_allowed,
]


def name_of_engine(engine: Engine) -> str:
    """Returns an engine in few words."""
    if isinstance(engine, Other):
        return engine.name
    if isinstance(engine, Ours):
        policy, _, book, rule = engine.options
        shown = [policy, book.decode(), "" if rule == SIMPLE else rule]
        shown.append("" if engine.fault == "none" else engine.fault)
        return " ".join(word for word in map(str, shown) if word)
    assert isinstance(engine, Planned)
    return engine.plan if engine.style == "<reply>" else f"{engine.style} {engine.plan}"


def name_of(kind: str, row: Row) -> str:
    """Returns a row in few words."""
    black, white = (name_of_engine(row.match.engines[side]) for side in (BLACK, WHITE))
    options = " ".join(row.match.options())
    return f"{kind} ({black} against {white}, {options}): {(row.output or '-').splitlines()[0]}"


def rows() -> list[tuple[str, Row]]:
    """Returns all rows, each with its name."""
    return [
        (name_of(kind.__name__.replace("_", " "), row), row) for kind in KINDS for row in kind()
    ]
