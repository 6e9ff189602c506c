"""Games and random matches that the examples play, beside those of twogtp."""
from __future__ import annotations

import random
import re
from subprocess import CompletedProcess
from typing import Any, Callable, List, NamedTuple

from tests.references.engine import chosen
from tests.references.engine.conversations import KINDS
from tests.shared.processes import TIMEOUT, TOP

LIMIT = 10 * TIMEOUT
Play = Callable[..., CompletedProcess[Any]]  # plays a match by twogtp
DIES = TOP / "tests/engines/hostile/dies"  # kills an engine
MATCHES = 60  # random ones, where no other number is asked for


def check_killed(engine: str, kept: int, white: str, play: Play) -> None:
    """Fails unless a game is played to its end whose Black is killed again and again.

    It is killed at its third genmove after each start, and after so many bytes of the reply.
    """
    black = f"{DIES} 3 {kept} {engine}"
    words = ["--size", "5", "--restarts", "1000", "--max-moves", "60"]
    line = play(black, white, *words).stdout
    end = r"game 1: (?:[BW]\+[0-9.]+|0|limit) moves ([0-9]+) restarts ([0-9]+) 0\n"
    found = re.fullmatch(end, line)
    assert found, line
    black_moves = (int(found[1]) + 1) // 2
    # each start of Black plays two of them
    assert int(found[2]) == (black_moves - 1) // 2


def check_conversations(engine: List[str], count: int, name: str = "stepgo") -> None:
    """Fails unless random conversations are those of the reference, so many of each quick kind."""
    for kind in KINDS:
        assert chosen.failures(engine, kind, chosen.counted(kind, count), 1, name) == []


class Match(NamedTuple):
    """A match: the size, twice the komi, and the commands of both engines."""

    size: int
    half_komi: int
    black: str
    white: str

    def by_twogtp(self, play: Play, *options: str) -> CompletedProcess[Any]:
        """Returns what comes of it by twogtp."""
        komi = f"--komi={self.half_komi / 2:g}"
        return play(self.black, self.white, "--size", str(self.size), komi, *options)


def random_engine(rng: random.Random, size: int, example: str) -> str:
    """Returns the command of the example, or mostly of an engine of ours, at times with a fault."""
    seed, times, kept = rng.getrandbits(32), rng.randint(1, 12), rng.randint(0, 9)
    faults = [f"stop:{times}", f"cut:{times}:{kept}", f"junk:{times}", f"flood:{times}"]
    fault = rng.choice(["none", "none", *faults])
    ko = rng.choice(["simple", "positional"])
    points = [f"{column}{row}" for column in "ABCDEFGHJ"[:size] for row in range(1, size + 1)]
    book = ",".join(rng.choice(["", "pass", "resign", rng.choice(points)]) for _ in range(9))
    policies = [f"book --book {book}", *["first", f"random --seed {seed}"] * 3]
    ours = [f"gtp_engine --fault {fault} --ko {ko} --policy {policy}" for policy in policies]
    return rng.choice([f"{example} {seed}", *ours])


def random_match(seed: int, number: int, example: str) -> Match:
    """Returns the random match of this number. The example is the command of its engine."""
    rng = random.Random(f"{seed} {number}")
    size = rng.choice([1, 2, 2, 2, 3, 4, 5, 7, 9])
    half_komi = rng.randint(-20, 20)
    return Match(size, half_komi, *(random_engine(rng, size, example) for _ in range(2)))


# both take the other's stones again and again; the second White doesn't let a board come again
ENDLESS = Match(2, 0, "gtp_engine --policy first", "gtp_engine --policy first")
REFUSED = ENDLESS._replace(white="gtp_engine --policy first --ko positional")
