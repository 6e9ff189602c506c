"""A small tournament that nobody disturbs, and what comes of its command given again."""
from __future__ import annotations

import shutil
from typing import Dict

from .runner import RANDOM, SMALL, Played, Runner

GAMES = [f"{seed}_{pair}" for seed in range(1, 5) for pair in ("one_two", "two_one")]


def test_both_colours_of_each_seed_have_a_result(small: Played) -> None:
    assert (small.done.status, small.done.errors) == (0, "")
    results = small.runner.games()
    assert sorted(results) == GAMES
    *lines, last = small.done.output.splitlines()
    verdicts = {game: text.splitlines()[0][8:] for game, text in results.items()}
    assert sorted(line.split(": ", 1)[1] for line in lines) == [
        f"{game}: {verdicts[game]}" for game in GAMES
    ]
    assert last == "8 of 8 games have a result"


def test_result_is_that_of_twogtp(small: Played) -> None:
    sides = ["--black", f"{RANDOM} 103", "--white", f"{RANDOM} 3"]
    alone = small.runner.run("twogtp", *sides, *SMALL[1:], "--record")
    assert small.runner.games()["3_two_one"] == alone.output


def test_nothing_is_left(small: Played) -> None:
    assert small.runner.files("all/logs") == {}
    assert small.runner.files("all/running") == {}
    assert small.runner.processes() == []


def written_at(runner: Runner) -> Dict[str, int]:
    """Returns when each result was written."""
    places = (runner.folder / "all/games").iterdir()
    return {place.name: place.stat().st_mtime_ns for place in places}


def test_given_again_it_plays_nothing(small: Played) -> None:
    before = written_at(small.runner)
    done = small.runner.tournament("play", "all")
    assert done == (0, "8 of 8 games have a result\n", "")
    assert written_at(small.runner) == before


def test_with_more_seeds_it_plays_those(small: Played, runner: Runner) -> None:
    shutil.copytree(small.runner.folder / "all", runner.folder / "all")
    before = written_at(runner)
    status, output, errors = runner.tournament("play", "all", "--seeds", "5")
    assert (status, output.count("\n"), errors) == (0, 3, "")
    assert sorted(runner.games()) == [*GAMES, "5_one_two", "5_two_one"]
    assert before.items() <= written_at(runner).items()
