"""What bench/playouts/run measures, over the package vintsaky: the rollouts of playouts.c."""
from __future__ import annotations

import time

from vintsaky import BLACK, Game

ROUNDS = 100
HALF_KOMI = 15
NO_LIMIT = 2**32 - 1


def sum_of_rollouts(game: Game, count: int) -> int:
    """Returns the sum of the scores of so many rollouts, in half points."""
    return sum(int(2 * game.rollout(BLACK, seed, NO_LIMIT)) for seed in range(count))


def main() -> None:
    """Prints a line for each size."""
    for lines, count in [(9, 100), (19, 25)]:
        game, times, total = Game(lines, HALF_KOMI / 2), [], 0
        for _ in range(ROUNDS):
            start = time.perf_counter_ns()
            total = sum_of_rollouts(game, count)
            times.append(time.perf_counter_ns() - start)
        print(lines, "rollouts", min(times), count, total)


main()
