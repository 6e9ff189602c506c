#!/usr/bin/env python3
"""An engine that plays a random legal point, unless only own stones surround it.

usage: random_engine.py [SEED]
"""
import random
import sys
from typing import Union

import vintsaky
from vintsaky import PASS, Colour, Game, NoPoint, Point


def is_eye(game: Game, colour: Colour, point: Point) -> bool:
    """Returns whether all neighbours of the point are the colour's own stones."""
    return all(game[near] == colour for near in point.neighbours(game.size))


class RandomEngine(vintsaky.Engine):
    """The engine. The same seed makes the same choices."""

    name = "random_engine"

    def __init__(self, seed: str) -> None:
        self.random = random.Random(seed)

    def choose(self, game: Game, colour: Colour) -> Union[Point, NoPoint]:
        good = [point for point in game.legal_points(colour) if not is_eye(game, colour, point)]
        return self.random.choice(good) if good else PASS


if __name__ == "__main__":
    RandomEngine(sys.argv[1] if len(sys.argv) > 1 else "1").serve()
