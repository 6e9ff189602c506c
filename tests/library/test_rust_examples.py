"""The examples in Rust play whole games, and matches as twogtp does."""
from __future__ import annotations

import re
from pathlib import Path
from typing import Any, List

import pytest

from tests.shared.processes import TOP, run

from .games import ENDLESS, LIMIT, REFUSED, Match, Play, check_conversations, check_killed

pytestmark = [pytest.mark.cargo, pytest.mark.xdist_group("the crate in Rust")]

LONGEST = {"random_engine": 60, "play_match": 60, "uct_engine": 120}  # lines of an example
RESTARTS = ["--restarts", "3"]  # of the example


@pytest.fixture(scope="module")
def examples(rust_workspace: Path) -> Path:
    """Returns the folder of the programs that the examples are built to."""
    manifest = rust_workspace / "vintsaky/Cargo.toml"
    command = ["cargo", "build", "--offline", "--examples", "--manifest-path", manifest]
    target = rust_workspace / "target"
    done = run([*command, "--target-dir", target], timeout=LIMIT)
    assert done.returncode == 0, done.stderr
    return target / "debug/examples"


@pytest.fixture(scope="module")
def engine(examples: Path) -> str:
    """Returns the command of the engine that plays at random."""
    return str(examples / "random_engine")


@pytest.mark.parametrize("name", LONGEST)
def test_example_is_short(name: str) -> None:
    source = TOP / f"library/rust/examples/{name}.rs"
    assert len(source.read_text().splitlines()) <= LONGEST[name]


# ---- the engines


@pytest.mark.parametrize("seed", [1, 2, 3])
def test_engine_plays_a_whole_game(seed: int, engine: str, play: Play) -> None:
    line = play(f"{engine} {seed}", f"{engine} {seed + 9}", "--size", "9", "--komi", "7.5").stdout
    assert re.fullmatch(r"game 1: ([BW]\+[0-9.]+|limit) moves [0-9]+ restarts 0 0\n", line)


@pytest.mark.parametrize("seed, kept", [(1, 0), (2, 0), (3, 6)])
def test_game_goes_on_where_the_engine_is_killed(
    seed: int, kept: int, engine: str, play: Play
) -> None:
    check_killed(f"{engine} {seed}", kept, f"{engine} {seed + 9}", play)


def test_another_seed_plays_another_game(engine: str, play: Play) -> None:
    games = {play(f"{engine} {seed}", f"{engine} 1", "--record").stdout for seed in (1, 2, 3)}
    assert len(games) == 3


def test_engine_that_searches_wins(examples: Path, engine: str, play: Play) -> None:
    sides = [f"{examples}/uct_engine 100 7", f"{engine} 8"]
    games = play(*sides, "--size", "5", "--games", "3").stdout
    line = r"^game [0-9]: ([BW]\+)[0-9.]+ moves [0-9]+ restarts 0 0$"
    assert re.findall(line, games, re.MULTILINE) == ["B+"] * 3


@pytest.mark.parametrize("command", ["random_engine", "uct_engine 8"])
def test_gtp_check_finds_nothing(command: str, examples: Path, gtp_check: Path) -> None:
    done = run([gtp_check, "--quick", examples / command], timeout=LIMIT)
    assert done.returncode == 0
    assert done.stdout.endswith(", 0 complaints\n")


def test_engine_is_the_reference_on_random_conversations(
    request: pytest.FixtureRequest, engine: str
) -> None:
    count = request.config.getoption("--count") or 10
    check_conversations([engine, "5"], count, "random_engine")


# ---- the matches


@pytest.fixture
def play_example(examples: Path, gtp_engine: Path, environment: dict[str, str]) -> Play:
    """Returns a function that plays a match by the example."""

    def play_match(*words: object) -> Any:
        command = [examples / "play_match", *words]
        return run(command, cwd=TOP, env=environment, timeout=LIMIT)

    return play_match


def test_random_match_is_that_of_twogtp(match: Match, play: Play, play_example: Play) -> None:
    done = play_example(*match)
    assert (done.returncode, done.stdout) == (0, match.by_twogtp(play, *RESTARTS).stdout)


@pytest.mark.parametrize("rare", [ENDLESS, REFUSED], ids=["endless", "refused"])
def test_rare_match_is_that_of_twogtp(rare: Match, play: Play, play_example: Play) -> None:
    done = play_example(*rare)
    assert (done.returncode, done.stdout) == (0, rare.by_twogtp(play, *RESTARTS).stdout)


@pytest.mark.parametrize(
    "words",
    [
        [],
        ["9", "0", "cat"],
        ["26", "0", "cat", "cat"],
        ["9", "2000000000", "cat", "cat"],
        ["x", "0", "cat", "cat"],
    ],
    ids=" ".join,
)
def test_mistake_in_the_arguments_is_one_line(words: List[str], play_example: Play) -> None:
    done = play_example(*words)
    assert (done.returncode, done.stdout, len(done.stderr.splitlines())) == (1, "", 1)
