"""Which games a plan has: gauntlets, engines that are added, and games that repeat others."""
from __future__ import annotations

import json
from typing import List, Optional, Set, Tuple

import pytest

from .runner import RANDOM, Runner, engines
from .written import ENDED, unique_moves, write_plan, write_result

NAMES = ("one", "two", "three", "four")
COMMANDS = {name: f"{RANDOM} {number}%s" for number, name in enumerate(NAMES)}
TINY = ["--", "--size", "2"]


def of(*names: str) -> List[str]:
    """Returns the options for these engines."""
    return engines(**{name: COMMANDS[name] for name in names})


def games(*pairs: Tuple[str, str]) -> List[str]:
    """Returns the games of these pairs with two seeds, in the order of a plan."""
    return [
        f"{seed}_{black}_{white}"
        for seed in (1, 2)
        for one, other in pairs
        for black, white in ((one, other), (other, one))
    ]


def played(output: str) -> Set[str]:
    """Returns the games that a run has printed."""
    return {line.split(": ")[1] for line in output.splitlines() if ": " in line}


def test_gauntlet(runner: Runner) -> None:
    words = [*of("one", "two", "three"), "--gauntlet", "two", "--seeds", "2", *TINY]
    assert runner.tournament("plan", "all", *words) == (0, "", "")
    names = games(("one", "two"), ("two", "three"))
    assert runner.tournament("list", "all").output.splitlines() == names
    assert 'gauntlet = "two"\n' in (runner.folder / "all/plan").read_text()
    assert runner.tournament("play", "all")[::2] == (0, "")
    assert sorted(runner.games()) == sorted(names)
    lines = [line.split("  ")[0] for line in runner.tally("all").output.splitlines()]
    pairs = [sorted(line.split(" - ")) for line in lines if " - " in line]
    assert sorted(pairs) == [["all", "two"], ["one", "two"], ["three", "two"]]


def test_engine_of_an_earlier_plan_that_is_named_all(runner: Runner) -> None:
    write_plan(runner.folder / "x", ["all", "b", "c"], 1)
    for game in ("1_all_b", "1_all_c", "1_b_c"):
        write_result(runner.folder / "x", game, f"B+R {ENDED}", unique_moves(game, 30))
    lines = [line.split("  ")[0] for line in runner.tally("x").output.splitlines()]
    sums = [f"{name} - all others" for name in ("all", "b", "c")]
    assert [line for line in lines if " - " in line] == [*sums, "all - b", "all - c", "b - c"]


def test_engine_is_added_to_a_gauntlet(runner: Runner) -> None:
    gauntlet = ["--gauntlet", "two", "--seeds", "2", *TINY]
    runner.tournament("play", "all", *of("one", "two", "three"), *gauntlet)
    before = runner.games()
    done = runner.tournament("play", "all", *of(*NAMES), *gauntlet)
    assert (done[::2], played(done.output)) == ((0, ""), {*games(("two", "four"))})
    assert before.items() < runner.games().items()
    done = runner.tournament("play", "all", *of(*NAMES), *gauntlet)
    assert done == (0, "12 of 12 games have a result\n", "")
    assert runner.tally("all").output.startswith("12 of 12 games")


def test_gauntlet_stays_that_of_the_plan(runner: Runner) -> None:
    words = [*of("one", "two", "three"), "--gauntlet", "two", *TINY]
    runner.tournament("plan", "all", *words)
    assert runner.tournament("plan", "all", *of("one", "two", "three"), *TINY).status == 2
    line = "tournament: all was begun with --gauntlet two: take another directory\n"
    assert runner.tournament("plan", "all", "--gauntlet", "one") == (2, "", line)
    assert runner.tournament("plan", "all", "--gauntlet", "two") == (0, "", "")


def test_added_engine_plays_all_others(runner: Runner) -> None:
    runner.tournament("play", "all", *of("one", "two"), "--seeds", "2", *TINY)
    before = runner.games()
    words = [*of("one", "two", "three"), *TINY]
    assert runner.tournament("plan", "all", *words) == (0, "", "")
    missing = games(("one", "three"), ("two", "three"))
    assert runner.tournament("list", "all").output.splitlines() == missing
    assert runner.tournament("play", "all")[::2] == (0, "")
    assert before.items() < runner.games().items()


# ---- plans whose games have to be the same, as engines choose nothing at random by themselves


def warning(names: Optional[str], seeds: str = "all seeds") -> str:
    """Returns what is written of these engines, if any are named."""
    text = (
        f"tournament: {names} have no %s, the seed, in their commands: unless they choose at"
        f" random by themselves, {seeds} give the same games, which tally counts once\n"
    )
    return text if names else ""


@pytest.mark.parametrize(
    "commands, words, names",
    [
        pytest.param("ab", ["--seeds", "2"], "a and b", id="two"),
        pytest.param("abc", ["--seeds", "2"], "a, b and c", id="three"),
        pytest.param("aSc", ["--seeds", "2"], "a and c", id="two of three"),
        pytest.param("aS", ["--seeds", "2"], None, id="one of two"),
        pytest.param("ab", ["--seeds", "1"], None, id="one seed"),
        pytest.param(
            "abS", ["--seeds", "2", "--gauntlet", "S"], None, id="two that don't play each other"
        ),
    ],
)
def test_engines_without_the_seed(
    commands: str, words: List[str], names: Optional[str], runner: Runner
) -> None:
    options = {name: "gtp_engine --seed %s" if name == "S" else "gtp_engine" for name in commands}
    command = ["plan", "all", *engines(**options), *words]
    assert runner.tournament(*command, *TINY) == (0, "", warning(names))
    # with another limit it says nothing again, and with more seeds only what is new
    assert runner.tournament(*command, "--limit", "99", *TINY) == (0, "", "")
    new = "a and b" if words[1] == "1" else None
    assert runner.tournament("plan", "all", "--seeds", "3") == (0, "", warning(new))


@pytest.mark.parametrize(
    "openings, seeds, names",
    [
        ("D4 E5 C3", 3, None),
        ("D4 E5 C3", 4, "a and b"),
        ("D4 E5 D4", 2, None),
        ("D4 E5 D4", 3, "a and b"),
    ],
)
def test_engines_without_the_seed_and_seeds_with_the_same_opening(
    openings: str, seeds: int, names: Optional[str], runner: Runner
) -> None:
    runner.write("openings", openings.replace(" ", "\n"))
    words = [*engines(a="gtp_engine", b="gtp_engine"), "--openings", "openings"]
    done = runner.tournament("plan", "all", *words, f"--seeds={seeds}", "--", "--size", "9")
    assert done == (0, "", warning(names, "all seeds with the same opening"))


def test_games_that_repeat_others(runner: Runner) -> None:
    words = engines(one="gtp_engine", two="gtp_engine --ko positional")
    options = ["--seeds", "4", "--", "--size", "5", "--komi", "0.5"]
    done = runner.tournament("play", "all", *words, *options)
    assert done[::2] == (0, warning("one and two"))
    (runner.folder / "all/games/4_two_one").unlink()
    tally = runner.tally("all").output
    head = (
        "the same, move by move, as an earlier game of the same engines, colours and opening,"
        " which count once in the intervals: 5\n"
    )
    others = "  1_one_two: 2_one_two and 2 others\n  1_two_one: 2_two_one and 1 other\n"
    assert head + others in tally
    (pair,) = json.loads(runner.tally("all", "--json").output)["pairs"]
    assert (pair["pairs_in_interval"], pair["interval"]) == (1, [0, 1])


# An engine wins the same two games against one engine with each seed, and one of two against
# another. The pairs of `first` are 20 alone, 1-1, and a cluster of 20, all won: 20 * 20 + 20 is the
# sum of the squares, so 10.5 pairs are added. The mean is (20/2 + 20 + 10.5/2) / 50.5 = 141/202.
# They are off by 101/202 - 141/202 = -40/202 and 20 * 61/202 = 1220/202, so 20 * 1600 + 1220^2 =
# 1520400, and 10.5^2 * (141^2 + 61^2) / 2 = 1301060.25. The half is 1.95996 * sqrt(2821460.25 /
# 202^2 / 50.5 / 40) = 0.36263: from 0.33539, which is -118.8 Elo.
MIXED = {"first_book": "B+R", "book_first": "W+R", "first_rand": "B+R", "rand_first": "B+R"}


def test_interval_of_an_engine_against_all(runner: Runner) -> None:
    write_plan(runner.folder / "all", ["first", "book", "rand"], 20)
    for seed in range(1, 21):
        for pair, verdict in MIXED.items():
            game = f"{seed}_{pair}"
            moves = " ".join(["D4"] * 30) if "book" in pair else unique_moves(game, 30)
            write_result(runner.folder / "all", game, f"{verdict} {ENDED}", moves)
    lines = runner.tally("all").output.splitlines()
    (line,) = (line.split() for line in lines if line.startswith("first - all "))
    assert " ".join(line[-8:]) == "75.0 33.5 to 100.0 +191 -119 to +inf"
    counted = json.loads(runner.tally("all", "--json").output)
    clusters = {row["name"]: row["pairs_in_interval"] for row in counted["engines"]}
    assert clusters == {"first": 21, "book": 1, "rand": 20}
    for row in counted["engines"] + counted["pairs"]:
        if row["pairs_in_interval"]:
            low, high = row["interval"]
            assert low <= row["score"] <= high
