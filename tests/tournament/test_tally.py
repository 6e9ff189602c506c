"""The tally of results that were counted by hand."""
from __future__ import annotations

import json
import re
from typing import List, Tuple

import pytest

from .runner import Runner
from .written import ENDED, write_plan, write_results

# a won 1_a_b with Black and 1_b_a with White; b won 2_b_a, 4_b_a and 5_b_a with Black, and 3_a_b,
# 4_a_b and 5_a_b with White. So of 8 games that have a winner b won 6, 75 %.
EACH_VERDICT = {
    "1_a_b": "B+5 moves 52 restarts 0 0",
    "1_b_a": "W+1 moves 61 restarts 0 1",
    "2_a_b": "0 moves 40 restarts 0 0",
    "2_b_a": "B+R moves 30 restarts 0 0",
    "3_a_b": "W+R moves 31 restarts 0 0",
    "3_b_a": "limit moves 1000 restarts 0 0",
    "4_a_b": "W+F(illegal move) moves 12 restarts 0 0",
    "4_b_a": "B+F(refused play) moves 7 restarts 1 0",
    "5_a_b": "W+F(no move) moves 4 restarts 0 0",
    "5_b_a": "B+F(no vertex) moves 5 restarts 0 0",
    "6_a_b": "unfit black moves 0 restarts 0 0",
    "6_b_a": "unfit white moves 0 restarts 0 0",
    "7_a_b": "abandoned black moves 0 restarts 2 0",
    "7_b_a": "abandoned white moves 9 restarts 0 2",
    "9_b_a": "W+16.5 mo",
}
# The pairs, as b sees them, where a game that nobody won is half a point: seed 1: 0. Seed 2: 1/2 +
# 1. Seed 3: 1 + 1/2. Seeds 4 and 5: 1 + 1. Seed 6: 1/2 + 1/2, and so seed 7. The others aren't
# whole. So the counts of 0, 1/2, 1, 3/2 and 2 are 1 0 2 2 2: 9 of 14 points, 64.3 %.
#
# So it is with --abandoned half, which counts as tally did before it had another default.
#
# The interval: with half a pair more at both ends there are 8, 1.5 0 2 2 2.5. Of each the share of
# 2 is 0, 1/4, 1/2, 3/4 or 1, so the mean is (2/2 + 2*3/4 + 2.5) / 8 = 5/8, the mean of the squares
# (2/4 + 2*9/16 + 2.5) / 8 = 33/64, and the variance 33/64 - 25/64 = 1/8. The half is 1.95996 *
# sqrt(1/8 / 7) = 0.26191: 0.36309 to 0.88691. In Elo, 400 * log10(s / (1 - s)), 9/14 is 102.1, and
# these are -97.6 and 357.8.
EACH_VERDICT_COUNTED = """\
14 of 20 games have a result, 8 have a winner; abandoned, late or unfit: half

engine  points    won  percent   with Black     with White
b          6.5      6     75.0   3 of 4         3 of 4
a          2.5      2     25.0   1 of 4         1 of 4

pair               won  no winner      0  0.5    1  1.5    2  score  95 % interval   Elo  95 % interval
b - a              6-2          6      1    0    2    2    2   64.3  36.3 to 88.7   +102  -98 to +358

Black won 4, White 4; 2 by resignation, 4 by forfeit
no winner: 1 drawn, 1 at the limit of moves, 2 unfit, 2 abandoned
games with a restart: 4
to look into:
  a: forfeit (illegal move): 1
  a: forfeit (no vertex): 1
  a: forfeit (no move): 1
  a: forfeit (refused play): 1
  a: unfit: 2
  a: abandoned: 2
  a: crashes: 7
  a: restarts: 5
  b: crashes: 1
  b: restarts: 1
no result: 6
  8_a_b: not over in 600 seconds
  9_b_a: its file is damaged
"""  # noqa: E501 since it is what a program writes
# Else a loses both games of seed 7, and seed 6 is out: b won 8 of 10, and its pairs are 0, 3/2,
# 3/2, 2, 2 and 2, which are 1 0 0 2 3, 9 of 12. By the same way the mean is 5/7, the mean of the
# squares (2 * 9/16 + 3.5) / 7 = 37/56, the variance 37/56 - 25/49 = 59/392, and the half 1.95996 *
# sqrt(59/392 / 6) = 0.31042: 0.40387 to 1. In Elo 3/4 is 190.8, and 0.40387 is -67.6.
BY_DEFAULT = {
    "14 of 20 games have a result, 8 have": "14 of 20 games have a result, 10 have",
    "abandoned, late or unfit: half": "abandoned or late: loses; unfit: out",
    "b          6.5      6     75.0   3 of 4         3 of 4": (
        "b          8.5      8     80.0   4 of 5         4 of 5"
    ),
    "a          2.5      2     25.0   1 of 4         1 of 4": (
        "a          2.5      2     20.0   1 of 5         1 of 5"
    ),
    "6-2          6      1    0    2    2    2   64.3  36.3 to 88.7   +102  -98 to +358": (
        "8-2          4      1    0    0    2    3   75.0  40.4 to 100.0  +191  -68 to +inf"
    ),
    "Black won 4, White 4; 2 by resignation, 4 by forfeit": (
        "Black won 5, White 5; 2 by resignation, 4 by forfeit, 2 abandoned"
    ),
    "2 unfit, 2 abandoned\n": "2 unfit, 0 abandoned\nout, and so in no pair: 2 unfit\n",
}


def write_each_verdict(runner: Runner) -> None:
    """Writes the tournament with each verdict, which has a log of a game without a result."""
    write_plan(runner.folder / "all", "ab", 10)
    write_results(runner.folder / "all", EACH_VERDICT)
    (runner.folder / "all/logs").mkdir()
    runner.write("all/logs/8_a_b", "twogtp: some line\ntournament: not over in 600 seconds\n")


def pairs_in(output: str) -> List[str]:
    """Returns the lines of a tally that are about pairs."""
    return re.findall("^.+ - .+$", output, re.MULTILINE)


def test_tally_with_half_a_point_for_abandoned_sides_is_the_earlier_one(runner: Runner) -> None:
    write_each_verdict(runner)
    assert runner.tally("all", "--abandoned", "half") == (1, EACH_VERDICT_COUNTED, "")


def test_each_verdict(runner: Runner) -> None:
    write_each_verdict(runner)
    wanted = EACH_VERDICT_COUNTED
    for before, now in BY_DEFAULT.items():
        assert wanted.count(before) == 1
        wanted = wanted.replace(before, now)
    assert runner.tally("all") == (1, wanted, "")
    assert runner.tally("all", "--abandoned", "loses") == (1, wanted, "")


# With half a point for sides that failed there are 1 0 2 2 2. Where games don't count that nobody
# won, except drawn ones, the seeds 3, 6 and 7 are left out: 1 0 0 1 2, 5.5 of 8; and where a loses
# that is abandoned, only 3 and 6: 1 0 0 1 3, 7.5 of 10. Where only failed sides are out, the seeds
# 6 and 7: 1 0 0 2 2, 7 of 10.
@pytest.mark.parametrize(
    "words, line",
    [
        (
            "--abandoned half --no-winner out",
            "6-2          6      1    0    0    1    2   68.8  22.3 to 100.0  +137  -217 to +inf",
        ),
        (
            "--no-winner out",
            "8-2          4      1    0    0    1    3   75.0  34.1 to 100.0  +191  -114 to +inf",
        ),
        (
            "--abandoned out",
            "6-2          6      1    0    0    2    2   70.0  31.6 to 100.0  +147  -134 to +inf",
        ),
        (
            "--abandoned half --no-winner half",
            "6-2          6      1    0    2    2    2   64.3  36.3 to 88.7   +102  -98 to +358",
        ),
    ],
)
def test_pairs_are_counted_as_asked(words: str, line: str, runner: Runner) -> None:
    write_each_verdict(runner)
    output = runner.tally("all", *words.split()).output
    assert pairs_in(output) == [f"b - a              {line}"]


JSON = {
    "games": 20,
    "results": 14,
    "winners": 8,
    "rule": {"abandoned": "half", "late": "half", "unfit": "half"},
    "black_won": 4,
    "white_won": 4,
    "damaged": 1,
    "same": [],
    "no_result": {"8_a_b": "not over in 600 seconds", "9_b_a": "its file is damaged"},
}
JSON_OF_B = {
    "name": "b",
    "points": 6.5,
    "games": 14,
    "won": 6,
    "lost": 2,
    "no_winner": 6,
    "drawn": 1,
    "black": {"won": 3, "lost": 1},
    "white": {"won": 3, "lost": 1},
    "to_look_into": {"crashes": 1, "restarts": 1},  # its forfeits are the other's
    "pairs": [1, 0, 2, 2, 2],
    "pairs_in_interval": 7,
}


def test_json(runner: Runner) -> None:
    write_each_verdict(runner)
    done = runner.tally("all", "--json", "--abandoned", "half")
    assert (done.status, done.output.count("\n"), done.errors) == (1, 1, "")
    found = json.loads(done.output)
    assert {key: found[key] for key in JSON} == JSON
    assert {key: found["engines"][0][key] for key in JSON_OF_B} == JSON_OF_B
    (pair,) = found["pairs"]
    assert pair["engines"] == ["b", "a"]
    numbers = [pair["score"], *pair["interval"], pair["elo"], *pair["elo_interval"]]
    assert numbers == pytest.approx(
        [
            9 / 14,
            0.363088795694101,
            0.886911204305899,
            102.109002041322,
            -97.6264165494777,
            357.784224860328,
        ],
        rel=1e-9,
    )


def test_infinite_difference_is_null_in_json(runner: Runner) -> None:
    write_each_verdict(runner)
    output = runner.tally("all", "--json", "--no-winner", "out").output
    low, high = json.loads(output)["pairs"][0]["elo_interval"]
    assert low < 0 and high is None


# a - b: a won all four. a - c: a won 1_a_c and 2_c_a, c won 1_c_a, 2_a_c was drawn. b - c: c won
# 1_b_c and 1_c_b, 2_b_c was at the limit, 2_c_b was drawn. Points: a 4 + 2 + 0.5, c 1 + 2 + 0.5 +
# 0.5, b 0.5. a won 6 of 7, c 3 of 5, b 0 of 6. Pairs: of a - b both are 2; a - c has 1 and 3/2; c -
# b has 2, and of seed 2 1/2 + 1/2. The ratings are by R: BTm of BradleyTerry2, its sandwich by R's
# matrices, and Black's advantage by glm, where each two engines have half a pair more, a quarter
# won twice and a quarter lost twice.
THREE_ENGINES = {
    "1_a_b": "B+1",
    "1_b_a": "W+1",
    "1_a_c": "B+R",
    "1_c_a": "B+R",
    "1_b_c": "W+3",
    "1_c_b": "B+12",
    "2_a_b": "B+2",
    "2_b_a": "W+R",
    "2_a_c": "0",
    "2_c_a": "W+2",
    "2_b_c": "limit",
    "2_c_b": "0",
}
THREE_ENGINES_COUNTED = """\
12 of 12 games have a result, 9 have a winner; abandoned or late: loses; unfit: out

engine  points    won  percent   with Black     with White
a          6.5      6     85.7   3 of 3         3 of 4
c            4      3     60.0   2 of 3         1 of 2
b          0.5      0      0.0   0 of 3         0 of 3

engine     Elo  95 % interval   better than the next
a         +136  -35 to +307      80.7 %
c          +28  -122 to +178     88.0 %
b         -164  -372 to +44
Black's advantage: +32 Elo, -107 to +171

pair               won  no winner      0  0.5    1  1.5    2  score  95 % interval   Elo  95 % interval
a - all            6-1          1      0    0    1    1    2   81.2  44.0 to 100.0  +255  -42 to +inf
c - all            3-2          3      0    1    2    0    1   56.2  22.5 to 87.5    +44  -215 to +338
b - all            0-6          2      3    0    1    0    0   12.5  0.0 to 52.5    -338  -inf to +17
a - c              2-1          1      0    0    1    1    0   62.5  15.1 to 100.0   +89  -300 to +inf
a - b              4-0          0      0    0    0    0    2  100.0  31.7 to 100.0  +inf  -133 to +inf
c - b              2-0          2      0    0    1    0    1   75.0  15.0 to 100.0  +191  -301 to +inf

Black won 5, White 4; 3 by resignation, 0 by forfeit
no winner: 2 drawn, 1 at the limit of moves, 0 unfit, 0 abandoned
"""  # noqa: E501 since it is what a program writes


def test_three_engines(runner: Runner) -> None:
    write_plan(runner.folder / "all", "abc", 2)
    results = {game: f"{verdict} {ENDED}" for game, verdict in THREE_ENGINES.items()}
    write_results(runner.folder / "all", results)
    assert runner.tally("all") == (0, THREE_ENGINES_COUNTED, "")
    assert runner.shell("tally all > /dev/full").status == 1


def test_engines_are_in_the_order_of_points_and_then_of_the_plan(runner: Runner) -> None:
    # a and b won a game each, c drew two games, and b and d one each
    verdicts = {"1_a_b": "B+1", "1_b_a": "B+1", "1_c_d": "0", "1_b_c": "0"}
    others = dict.fromkeys(["1_d_c", "1_c_b"], "limit")
    write_plan(runner.folder / "all", "dcab", 1)
    results = {game: f"{verdict} {ENDED}" for game, verdict in {**verdicts, **others}.items()}
    write_results(runner.folder / "all", results)
    rows = re.findall(r"^([a-d]) +(\d+\.?5?) +(\d+) ", runner.tally("all").output, re.MULTILINE)
    assert rows == [("b", "1.5", "1"), ("c", "1", "0"), ("a", "1", "1"), ("d", "0.5", "0")]
    found = json.loads(runner.tally("all", "--json").output)
    assert [engine["name"] for engine in found["engines"]] == ["b", "c", "a", "d"]


# Black, a, was late in 1_a_b, and so was Black, b, in 2_b_a. White, a, lost 1_b_a by the server's
# own reason, and Black, a, lost 2_a_b by a cause of twogtp. So a won one game with White, and b one
# of two with Black and both with White.
OF_A_SERVER = {
    "1_a_b": "W+T",
    "1_b_a": "B+F(left the hall)",
    "2_a_b": "W+F(no move)",
    "2_b_a": "W+T",
}
OF_A_SERVER_COUNTED = """\
b            3      3     75.0   1 of 2         2 of 2
a            1      1     25.0   0 of 2         1 of 2
Black won 1, White 3; 0 by resignation, 2 by forfeit, 2 on time
no winner: 0 drawn, 0 at the limit of moves, 0 unfit, 0 abandoned
to look into:
  a: forfeit (no move): 1
  a: forfeit (left the hall): 1
  a: time: 1
  b: time: 1
"""


def test_results_of_a_server(runner: Runner) -> None:
    write_plan(runner.folder / "all", "ab", 2)
    results = {game: f"{verdict} {ENDED}" for game, verdict in OF_A_SERVER.items()}
    write_results(runner.folder / "all", results)
    status, output, errors = runner.tally("all")
    wanted = OF_A_SERVER_COUNTED.splitlines()
    assert [line for line in output.splitlines() if line in wanted] == wanted
    assert (status, errors) == (0, "")
    ended = json.loads(runner.tally("all", "--json").output)["ended"]
    assert ended == {"forfeit (left the hall)": 1, "forfeit (no move)": 1, "time": 2}


@pytest.mark.parametrize(
    "words",
    [
        pytest.param((), id="no directory"),
        pytest.param(("all", "other"), id="two directories"),
        pytest.param((".",), id="a directory without a plan"),
        pytest.param(("-x",), id="an option that isn't there"),
    ],
)
def test_usage_error(words: Tuple[str, ...], runner: Runner) -> None:
    write_plan(runner.folder / "all", "ab", 1)
    status, output, errors = runner.tally(*words)
    assert (status, output) == (2, "")
    assert errors != ""
