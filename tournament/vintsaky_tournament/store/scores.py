"""The scores of games that ended by two passes, by the scorer of a plan.

FOLDER/scores/GAME has lines: `of LINE CRC`, the line of the result and a sum of the moves, since
the game may be played again; `scorer COMMAND`; then either `by final_status_list`, `dead VERTEX ..`
and `verdict VERDICT`, or `by final_score` and `verdict VERDICT`, or `failed REASON`.
"""
from __future__ import annotations

import os
import zlib
from typing import NamedTuple

from ..model import Plan, Result
from .results import bytes_of, of_all

BY_STONES, BY_SCORE = "final_status_list", "final_score"


class Score(NamedTuple):
    """What a scorer says of a game: a verdict, and by which command it was found; or why it has
    none."""

    verdict: str | None
    method: str = ""
    dead: tuple[str, ...] = ()
    failure: str = ""


def is_by_score(verdict: str) -> bool:
    """Returns whether a game with this verdict ended by two passes."""
    return verdict == "0" or verdict[1] == "+" and verdict[2].isdigit()


def mark_of(result: Result) -> str:
    """Returns by what a result is known again."""
    return f"{result.line} {zlib.crc32(result.vertices.encode()):08x}"


def write(folder: str, name: str, scorer: str, result: Result, score: Score) -> None:
    """Writes the score of a game, in place of an earlier one."""
    lines = [f"of {mark_of(result)}", f"scorer {scorer}"]
    if score.verdict is None:
        lines.append(f"failed {score.failure}")
    else:
        lines.append(f"by {score.method}")
        lines += [f"dead {' '.join(score.dead)}"] if score.method == BY_STONES else []
        lines.append(f"verdict {score.verdict}")
    os.makedirs(f"{folder}/scores", exist_ok=True)
    new_place = f"{folder}/scores/.{name}.{os.getpid()}"
    try:
        with open(new_place, "wb") as file:
            file.write(os.fsencode("".join(f"{line}\n" for line in lines)))
        os.replace(new_place, f"{folder}/scores/{name}")
    except OSError:
        if os.path.exists(new_place):
            os.unlink(new_place)
        raise


def read(folder: str, name: str, scorer: str, result: Result) -> Score | None:
    """Returns the score of a game by this scorer; None where there is no whole one of this
    result."""
    try:
        text = os.fsdecode(bytes_of(f"{folder}/scores/{name}"))
    except OSError:
        return None
    if not text.endswith("\n"):
        return None
    parts = (line.partition(" ") for line in text[:-1].split("\n"))
    found = {key: value for key, _, value in parts}
    if found.get("of") != mark_of(result) or found.get("scorer") != scorer:
        return None
    if "failed" in found:
        return Score(None, failure=found["failed"])
    verdict, method = found.get("verdict", ""), found.get("by", "")
    if not verdict or method not in (BY_STONES, BY_SCORE):
        return None
    return Score(verdict, method, tuple(found.get("dead", "").split()))


def count_missing(plan: Plan, folder: str) -> int:
    """Returns how many games the scorer of a plan was not asked for, or was stopped in."""
    count, scorer = 0, plan.scorer or ""
    for number, result in of_all(plan, folder, is_quiet=True):
        if result and is_by_score(result.verdict):
            count += read(folder, plan.games().name(number), scorer, result) is None
    return count
