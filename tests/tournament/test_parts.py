"""tally --by: the score of games by colour, opening, length or time a move."""
from __future__ import annotations

import json
from typing import List

import pytest

from .runner import Runner
from .test_tally import write_each_verdict
from .written import ENDED, write_plan, write_results

# The games of test_tally.py, of which those with an unfit side are out. With Black and with White a
# won one, drew one or was at the limit, and lost four: 1.5 of 6. An interval is that of pairs, with
# one game more: the mean is 2/7, the variance 1.75/7 - 4/49 = 33/196, and the half 1.95996 *
# sqrt(33/196 / 6) = 0.32832. Of the games with less than 50 moves Black won 4 and White 4, and one
# was drawn: the variance is 2.25/10, and the half 1.95996 * sqrt(0.225 / 9) = 0.30990. Black won
# that of 52 moves, and White that of 61, and one was at the limit.
BY_COLOUR = """\
colour    games          score  95 % interval
a black       6           25.0  0.0 to 61.4
a white       6           25.0  0.0 to 61.4
b black       6           75.0  38.6 to 100.0
b white       6           75.0  38.6 to 100.0
"""
BY_LENGTH = """\
length               games  Black's score  95 % interval
0 to 49 moves            9           50.0  19.0 to 81.0
50 to 99 moves           2           50.0  0.0 to 100.0
1000 to 1049 moves       1           50.0  0.0 to 100.0
"""
# Black won both games of seed 1 and the one of seed 3: 3.5 of 4, the variance 7/64, and the half
# 1.95996 * sqrt(7/64 / 3) = 0.37424.
BY_OPENING = """\
opening   games  Black's score  95 % interval
1 C3          3          100.0  50.1 to 100.0
2 D4 E5       2           50.0  0.0 to 100.0
"""


@pytest.mark.parametrize("name, table", [("colour", BY_COLOUR), ("length", BY_LENGTH)])
def test_table(name: str, table: str, runner: Runner) -> None:
    write_each_verdict(runner)
    assert runner.tally("all", "--by", name) == (1, table, "")


def test_table_of_openings(runner: Runner) -> None:
    write_plan(runner.folder / "all", "ab", 3, "opening C3", "opening D4 E5")
    verdicts = {"1_a_b": "B+R", "1_b_a": "B+R", "2_a_b": "W+R", "2_b_a": "B+R", "3_a_b": "B+R"}
    results = {game: f"{verdict} {ENDED}" for game, verdict in verdicts.items()}
    write_results(runner.folder / "all", results)
    assert runner.tally("all", "--by", "opening") == (1, BY_OPENING, "")


@pytest.mark.parametrize("name, count", [("colour", 4), ("opening", 0), ("length", 3)])
def test_json(name: str, count: int, runner: Runner) -> None:
    write_each_verdict(runner)
    found: List[object] = json.loads(runner.tally("all", "--json").output)[f"by_{name}"]
    assert len(found) == count
    if name == "colour":
        interval = pytest.approx([0, 0.614037], abs=1e-6)
        assert found[0] == {"name": "a black", "games": 6, "score": 0.25, "interval": interval}


# a won both games: with moves of 1 and 3 seconds, and with one of 0.5. b had 0.25, and 0.2 and 0.3.
# Of one game that is won the mean is 3/4, and the half 1.95996 * sqrt(0.375 / 2) = 0.84869; of two
# that are lost they are 1/6 and 1.95996 * sqrt(5/12 / 6) = 0.51650.
BY_TIME = """\
time             games          score  95 % interval   mean move  longest
a 0.5 to 1 s         1          100.0  0.0 to 100.0        0.500    0.500
a 2 to 5 s           1          100.0  0.0 to 100.0        2.000    3.000
b 0.2 to 0.5 s       2            0.0  0.0 to 68.3         0.250    0.300
"""
# what is no move, or none of the engine's own, and a move that was taken back, which took its time
MOVES = {
    "1_a_b": "0 black started 7.5\n1 black D4 opening\n2 white failed 9.0\n2 white E5 0.25\n"
    "3 black C3 1.0\n3 black undone\n3 black C4 3.0 cpu 2.5\n",
    "1_b_a": "1 black D4 0.2\n2 white E5 0.5\n3 black no-vertex 8.0\n3 black resign 0.3\n",
}


@pytest.fixture
def timed(runner: Runner) -> Runner:
    """Returns what runs the scripts where two games have notes, and one has those of another."""
    results = {"1_a_b": f"B+R {ENDED}", "1_b_a": f"W+R {ENDED}", "2_a_b": f"W+R {ENDED}"}
    write_plan(runner.folder / "all", "ab", 2)
    write_results(runner.folder / "all", results)
    (runner.folder / "all/notes").mkdir()
    for game, moves in {**MOVES, "2_a_b": "1 black D4 100.0\n"}.items():
        verdict = "0 moves 2 restarts 0 0" if game == "2_a_b" else results[game]
        runner.write(f"all/notes/{game}", f"{game} on here\n{moves}result: {verdict}\n")
    return runner


def test_table_of_times(timed: Runner) -> None:
    assert timed.tally("all", "--by", "time") == (1, BY_TIME, "")


def test_times_in_json(timed: Runner) -> None:
    found = json.loads(timed.tally("all", "--json", "--by", "time").output)["by_time"]
    names = ["a 0.5 to 1 s", "a 2 to 5 s", "b 0.2 to 0.5 s"]
    assert [each["name"] for each in found] == names
    assert [(each["mean"], each["longest"]) for each in found] == [(0.5, 0.5), (2, 3), (0.25, 0.3)]
    assert "by_time" not in json.loads(timed.tally("all", "--json").output)


def test_times_of_games_without_notes(runner: Runner) -> None:
    write_plan(runner.folder / "all", "ab", 1, "direct")
    said = "tally: --by time is for games with notes, which those of --direct haven't\n"
    assert runner.tally("all", "--by", "time") == (2, "", said)


def test_mistake(runner: Runner) -> None:
    write_each_verdict(runner)
    said = "tally: --by needs colour, opening, length, time after it, and not 'moves'\n"
    assert runner.tally("all", "--by", "moves") == (2, "", said)
