"""The score of a game that ended by two passes, without the stones that a scorer says are dead."""
from __future__ import annotations

import os
import re
import signal
from typing import TYPE_CHECKING, NoReturn

from .. import output, processes
from ..config import rules
from ..config.setup import Setup
from ..model import Engine
from ..play.trial import Failed, Refusal
from ..store import scores
from ..store.results import quote
from ..store.results import score as text_of
from ..store.scores import BY_SCORE, BY_STONES, Score
from .replay import Replayer, first_colour

if TYPE_CHECKING:
    from ..model import Plan, Result
    from ..play.match import Match

SECONDS = 60  # for an answer, where a plan doesn't say otherwise
WON = re.compile(r"([BW])\+ ?([0-9]{1,4})(?:\.([05])0*)?", re.IGNORECASE)
DRAWN = re.compile(r"0(?:\.0*)?|draw|jigo", re.IGNORECASE)
DEAD = "final_status_list dead"


def score_of(plan: Plan, folder: str, result: Result, log: int) -> Score:
    """Has the scorer of a plan score a game, in this folder and with this log, and returns that."""
    try:
        words = Engine("the scorer", plan.scorer or "").words(is_direct=False)
        seconds = float(plan.start_limit or SECONDS)
        replayer = Replayer(words, folder, log, seconds)
        try:
            return asked(replayer, Setup(plan.options), result)
        finally:
            replayer.end()
    except (Failed, output.Mistake) as failed:
        return Score(None, failure=" ".join(quote(os.fsencode(failed.text)).split()))


def asked(replayer: Replayer, setup: Setup, result: Result) -> Score:
    """Replays a game, and returns the score by what the scorer answers then."""
    replayer.set_up(setup)
    replayer.play(setup, result)
    dead = dead_stones(replayer)
    if dead is None:
        return Score(verdict_of(replayer.ask("final_score")), BY_SCORE)
    board = rules.Board(setup.rows(), setup.stones())
    for at, vertex in enumerate(result.vertices.split()):
        is_white = (first_colour(setup) + at) % 2
        board.play(rules.WHITE if is_white else rules.BLACK, vertex)
    empty = board.remove(dead)
    if empty:
        raise Failed(f"it says that {empty} is dead, where no stone is")
    verdict = text_of(2 * board.area() - setup.half_points())
    return Score(verdict, BY_STONES, tuple(dead))


def dead_stones(replayer: Replayer) -> list[str] | None:
    """Returns the vertices of the dead stones; None where the scorer lacks that command."""
    try:
        if replayer.ask(f"known_command {DEAD.split()[0]}").lower() == "false":
            return None
    except Refusal:
        pass  # its answer to the command itself says more
    try:
        words = replayer.ask(DEAD).split()
    except Refusal:
        return None
    vertices = [rules.as_vertex(word) for word in words]
    found = [vertex for vertex in vertices if vertex not in (None, rules.PASS)]
    if len(found) < len(words):
        raise Failed(f"its answer to '{DEAD}' is no list of vertices: {' '.join(words)[:80]!r}")
    return [vertex for vertex in found if vertex]


def verdict_of(text: str) -> str:
    """Returns the verdict that an answer to final_score is."""
    won = WON.fullmatch(text)
    if won:
        half_points = 2 * int(won[2]) + (won[3] == "5")
        return text_of(half_points if won[1].upper() == "B" else -half_points)
    if DRAWN.fullmatch(text):
        return "0"
    raise Failed(f"its final_score is no score: {text[:80]!r}")


def score_here(match: Match, place: str, result: Result, log: int, parent: int) -> NoReturn:
    """Scores a game in this process, a new fork of that of the game, and ends it. `place` is that
    of the game's result."""
    try:
        if not processes.end_with_parent(parent, signal.SIGKILL):
            score = score_of(match.plan, match.folder, result, log)
            games, name = os.path.split(place)
            scores.write(os.path.dirname(games), name, match.plan.scorer or "", result, score)
    except BaseException as error:  # this process may not go on as that of the game
        output.report(f"{os.path.basename(place)}: not scored: {type(error).__name__}: {error}")
    finally:
        os._exit(0)
