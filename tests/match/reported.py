"""How many lines `--why` may print of a game, without the reference."""
from __future__ import annotations

import re
from collections import Counter

# The number of the game in its own line, with the restarts of both sides; in a line of `--why`; and
# in one of a retake, with its count.
GAME_LINE = re.compile(rb"^game (\d+): .* restarts (\d+) (\d+)$", re.MULTILINE)
WHY_LINE = re.compile(rb"^twogtp: game (\d+): ", re.MULTILINE)
RETAKE_LINE = re.compile(
    rb'^twogtp: game (\d+): (?:black|white): 1 unanswered, "\d+ play [bw] \w+":'
    rb' the play was refused \(retake (\d+) of 3\); it wrote "',
    re.MULTILINE,
)


def has_too_many_lines(output: bytes, errors: bytes, most_moves: int) -> bool:
    """Returns whether `--why` prints more lines of a game than it may.

    Those of losses are at most the starts: the restarts of both sides, which the game's own line
    has, and two more.
    """
    starts = {
        number: int(black) + int(white) + 2 for number, black, white in GAME_LINE.findall(output)
    }
    lines = Counter(WHY_LINE.findall(errors))
    retakes: dict[bytes, Counter[int]] = {number: Counter() for number in lines}
    for number, count in RETAKE_LINE.findall(errors):
        retakes[number][int(count)] += 1
    return any(
        count - sum(retakes[number].values()) > starts.get(number, 0)
        or not may_be_counted_so(retakes[number], most_moves)
        for number, count in lines.items()
    )


def may_be_counted_so(retakes: Counter[int], most_moves: int) -> bool:
    """Returns whether a game with at most so many moves may have so many retakes of each count.

    Each move number has at most three retakes, counted from 1. So there are at most as many first
    ones as moves are allowed, no more second ones than first ones, and so on, and no others.
    """
    return set(retakes) <= {1, 2, 3} and most_moves >= retakes[1] >= retakes[2] >= retakes[3]
