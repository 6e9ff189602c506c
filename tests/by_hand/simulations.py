#!/usr/bin/env python3
"""Simulates tests and tournaments whose true differences in Elo are known, by hand.

usage: tests/by_hand/simulations.py errors COUNT        how often tests err, of so many each
       tests/by_hand/simulations.py year FOLDER SEEDS   what the tally finds of 40 engines
       tests/by_hand/simulations.py ratings FOLDER      what R's BradleyTerry2 finds

20000 tests of each kind take an hour. 641 seeds are 999,960 games, in some minutes and 4 GB.
"""
from __future__ import annotations

import json
import subprocess
import sys
from itertools import product
from pathlib import Path

sys.dont_write_bytecode = True
TOP = Path(__file__).resolve().parents[2]
sys.path[0] = str(TOP)

from tests.tournament import simulation  # noqa: E402 since the path comes first
from tests.tournament.runner import SCRIPTS  # noqa: E402 since the path comes first

R_COMMANDS = """\
library(BradleyTerry2)
games <- read.csv("games.csv")
games <- games[games$winner != "", ]
names <- sort(unique(c(games$black, games$white)))
games$one <- data.frame(engine = factor(games$black, names), black = 1)
games$two <- data.frame(engine = factor(games$white, names), black = 0)
fit <- BTm(games$winner == "black", one, two, ~ engine + black, id = "engine", data = games)
round(400 / log(10) * coef(fit), 1)
"""
DIFFERENCES = [
    (0, 10),
    (0, 20),
    (0, 50),
    (0, 100),
    (-10, 10),
    (-50, 50),
    (0, 200),
    (50, 60),
    (100, 150),
    (300, 400),
    (700, 800),
]


def print_errors(count: int) -> None:
    """Prints how often tests err, also by the first ratio alone."""
    for differences, kind in product(DIFFERENCES, simulation.KINDS):
        likely = [kind(simulation.scores.expected(elo)) for elo in differences]
        if any(min(shares) < -1e-9 or max(shares) >= 1 for shares in likely):
            continue  # pairs of this kind can't have such a score
        is_long = differences[1] - differences[0] <= 10
        tests = min(count, max(1000, count // 8)) if is_long else count
        for decide in (simulation.scores.decision, simulation.by_ratio):
            rates = simulation.error_rates(kind, differences, tests, decide)
            said = [f"{100 * rate.errors:.1f} % in {rate.pairs:.0f} pairs" for rate in rates]
            print(*differences, kind.__name__, decide.__name__, *said, flush=True)


def print_year(folder: Path, seeds: int) -> None:
    """Prints what the tally finds of the games of a year, which are written if there are none."""
    elos = simulation.strengths(40)
    if not folder.exists():
        simulation.write_tournament(folder, elos, seeds)
    command = [str(SCRIPTS / "tally"), str(folder), "--json"]
    found = json.loads(subprocess.run(command, stdout=subprocess.PIPE).stdout)
    inside = simulation.count_inside(found, elos)
    print(f"{inside} of {len(found['pairs'])} intervals hold the true difference")
    order = [engine["name"] for engine in found["engines"]]
    print("the order is the true one:", order == sorted(elos, key=lambda name: -elos[name]))


def print_ratings(folder: Path) -> None:
    """Prints what R finds of six engines that are 60 Elo apart."""
    simulation.write_tournament(folder / "all", simulation.strengths(6, 60), 200)
    with open(folder / "games.csv", "wb") as file:
        subprocess.run([SCRIPTS / "tournament", "export", folder / "all", "--csv"], stdout=file)
    subprocess.run(["R", "--no-save", "--quiet"], cwd=folder, input=R_COMMANDS.encode(), check=True)
    print("wanted: near 60, 120, 180, 240 and 300, and near 0 for Black")


if __name__ == "__main__":
    if sys.argv[1:2] == ["errors"] and len(sys.argv) == 3:
        print_errors(int(sys.argv[2]))
    elif sys.argv[1:2] == ["year"] and len(sys.argv) == 4:
        print_year(Path(sys.argv[2]), int(sys.argv[3]))
    elif sys.argv[1:2] == ["ratings"] and len(sys.argv) == 3:
        print_ratings(Path(sys.argv[2]))
    else:
        sys.exit(__doc__)
