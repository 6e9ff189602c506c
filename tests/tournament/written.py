"""Writes tournaments by hand: a plan, and results that nobody has played."""
from __future__ import annotations

import random
from pathlib import Path
from typing import Iterable, Iterator, List, Mapping, NamedTuple, Optional, Sequence

ENDED = "moves 30 restarts 0 0"  # of a game of which only the verdict matters


def write_plan(folder: Path, names: Iterable[str], seeds: int, *lines: str) -> None:
    """Writes the plan of a tournament of these engines, whose komi is 7, with these lines more."""
    (folder / "games").mkdir(parents=True)
    engines = [f"engine {name} x" for name in names]
    written = ["folder /", *engines, *(lines or ["option --komi=7"]), f"seeds {seeds}", "limit 600"]
    (folder / "plan").write_text("".join(f"{line}\n" for line in written))


def write_result(folder: Path, game: str, verdict: str, moves: str) -> None:
    """Writes the result of a game."""
    (folder / "games" / game).write_text(f"game 1: {verdict}\n{moves}\n")


def unique_moves(game: str, count: int) -> str:
    """Returns so many moves, which no other game has if they are many."""
    chosen = random.Random(game)
    columns, rows = "ABCDEFGHJ", range(1, 10)
    return " ".join(f"{chosen.choice(columns)}{chosen.choice(rows)}" for _ in range(count))


def write_results(folder: Path, results: Mapping[str, str]) -> None:
    """Writes the results of games that are all different, by their names, without `game 1: `."""
    for game, verdict in results.items():
        words = verdict.split()
        count = int(words[words.index("moves") + 1]) if "moves" in words else 1
        write_result(folder, game, verdict, unique_moves(game, count))


# ---- pairs of games of the engines a and b


class Pair(NamedTuple):
    """Two games with one seed, by their verdicts: in the first one a is Black, in the other one b.

    The moves of each are a letter, which is in the last one, and their number, where that isn't 21.
    Where they aren't given they are those of no other game. A game without a verdict has no result.
    """

    first: Optional[str]
    second: Optional[str]
    first_moves: str = ""
    second_moves: str = ""


LOST, EVEN, WON = Pair("W+R", "B+R"), Pair("B+R", "B+R"), Pair("B+R", "W+R")
OUTCOMES = [LOST, Pair("W+R", "0"), EVEN, Pair("0", "W+R"), WON]  # from 0 to 2 points of a


def pairs_of(counts: Sequence[int]) -> Iterator[Pair]:
    """Yields as many pairs of each outcome as this says."""
    for pair, count in zip(OUTCOMES, counts):
        yield from [pair] * count


def moves_of(label: str) -> str:
    """Returns the moves that a letter and a number stand for."""
    return "D4 " * (int(label[1:] or 21) - 1) + f"{label[0]}1"


def write_pairs(
    folder: Path, pairs: Iterable[Pair], names: str = "ab", lines: Sequence[str] = ()
) -> None:
    """Writes a tournament of a and b, whose plan names them in this order."""
    played: List[Pair] = list(pairs)
    write_plan(folder, names, len(played), *lines)
    for seed, pair in enumerate(played, 1):
        first, second, *moves = pair
        for game, verdict, label in zip((f"{seed}_a_b", f"{seed}_b_a"), (first, second), moves):
            if verdict:
                text = moves_of(label) if label else unique_moves(game, 30)
                verdict += f" moves {len(text.split())} restarts 0 0"
                write_result(folder, game, verdict, text)
