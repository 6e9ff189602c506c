"""The package for Python plays as the reference, and its examples play as twogtp does."""
from __future__ import annotations

import random
import re
import sys
from pathlib import Path
from typing import Any, Dict, List

import pytest

from tests.references.engine.game import POSITIONAL, SIMPLE, Game, points
from tests.references.engine.values import BLACK, PASS, WHITE, Vertex
from tests.shared.processes import TOP, run

from .games import ENDLESS, LIMIT, REFUSED, Match, Play, check_conversations, check_killed
from .python_package import PACKAGE, variables
from .searched import load_package

EXAMPLES = PACKAGE / "examples"
OPPONENT = "gtp_engine --policy random --seed 9"


@pytest.fixture(scope="module")
def environment(environment: Dict[str, str], shared_library: Path) -> Dict[str, str]:
    """Returns the environment, in which the package is found too."""
    return {**environment, **variables(shared_library)}


@pytest.fixture(scope="module")
def engine() -> str:
    """Returns the command of the engine that plays at random."""
    return f"{sys.executable} {EXAMPLES}/random_engine.py"


# ---- the package


@pytest.mark.parametrize("number", range(100))
def test_random_game_is_that_of_the_reference(number: int, shared_library: Path) -> None:
    vintsaky, rng = load_package(shared_library), random.Random(f"game {number}")
    size, half_komi, is_simple = rng.randint(1, 6), rng.randint(-20, 20), rng.random() < 0.5
    wanted = Game(SIMPLE if is_simple else POSITIONAL)
    wanted.begin(size)
    wanted.komi = half_komi
    rule = vintsaky.KoRule.SIMPLE if is_simple else vintsaky.KoRule.POSITIONAL
    game = vintsaky.Game(size, half_komi / 2, rule)
    for _ in range(rng.choice([20, 80])):
        if wanted.moves and rng.random() < 0.1:
            game.undo()
            wanted.undo()
        colour = rng.choice([BLACK, WHITE])
        own_colour = vintsaky.BLACK if colour == BLACK else vintsaky.WHITE
        legal = [it for it in points(size) if wanted.after(colour, it) is not None]
        assert game.legal_points(own_colour) == legal, wanted.moves
        vertices: List[Vertex] = [*points(size), *points(size), (size + 1, 1), PASS]
        vertex = rng.choice(vertices)
        own_vertex = vintsaky.PASS if vertex == PASS else vintsaky.Point(*vertex)
        before, after = wanted.board, wanted.after(colour, vertex)
        if after is None:
            cause = game.why_not(own_colour, own_vertex)
            assert cause.name in ("OFF_BOARD", "OCCUPIED", "SUICIDE", "KO"), wanted.moves
        else:
            assert game.why_not(own_colour, own_vertex) is None, wanted.moves
            game.play(own_colour, own_vertex)
            wanted.play(colour, vertex)
            taken = [it for it in points(size) if it in before and it not in after]
            assert game.taken == taken, wanted.moves
        assert str(game) == wanted.show()
        assert (game.score * 2, len(game.moves)) == (wanted.score(), len(wanted.moves))


# ---- the engine


@pytest.mark.parametrize("seed", [1, 2])
def test_engine_plays_the_same_whole_game_again(seed: int, engine: str, play: Play) -> None:
    words = [f"{engine} {seed}", OPPONENT, "--size", "9", "--komi", "7.5"]
    done = play(*words)
    end = r"game 1: ([BW]\+[0-9.]+|0|limit) moves [0-9]+ restarts 0 0\n"
    assert re.fullmatch(end, done.stdout)
    assert done.stderr == ""
    assert play(*words).stdout == done.stdout


@pytest.mark.parametrize("seed, kept", [(1, 0), (2, 0), (3, 6)])
def test_game_goes_on_where_the_engine_is_killed(
    seed: int, kept: int, engine: str, play: Play
) -> None:
    check_killed(f"{engine} {seed}", kept, OPPONENT, play)


def test_gtp_check_finds_nothing(engine: str, gtp_check: Path, environment: Dict[str, str]) -> None:
    done = run([gtp_check, "--quick", engine], env=environment, timeout=LIMIT)
    assert done.returncode == 0
    assert done.stdout.endswith(", 0 complaints\n")


def test_engine_is_the_reference_on_random_conversations(
    request: pytest.FixtureRequest,
    engine: str,
    shared_library: Path,
    monkeypatch: pytest.MonkeyPatch,
) -> None:
    for name, value in variables(shared_library).items():
        monkeypatch.setenv(name, value)
    count = request.config.getoption("--count") or 6
    check_conversations([*engine.split(), "5"], count, "random_engine")


# ---- engines of other authors

# an engine, and what it does at its second move and again after a restart
ENGINE = """\
import os, sys, vintsaky
from concurrent.futures import ThreadPoolExecutor
class Engine(vintsaky.Engine):
    def choose(self, game, colour):
        if len(game.moves) < 2:
            return game.legal_points(colour)[-1]
        {}
Engine().serve()
"""
PRINTS = [
    'print("a thought")',
    'os.system("echo another")',
    'sys.__stdout__.write("and more\\n")',
    "return game.legal_points(colour)[0]",
]
IN_A_THREAD = "ThreadPoolExecutor(1).submit(game.legal_points, colour).result()[0]"
# An engine that answers a command of its own wrongly, which comes before each line of the match.
# Its failures are kept back.
OWN_COMMAND = """\
import os, vintsaky
class Engine(vintsaky.Engine):
    def choose(self, game, colour):
        return game.legal_points(colour)[-1]
    @vintsaky.command("bad")
    def say_bad(self, words):
        return 5
class Source:
    def read(self, most):
        data = os.read(0, most)
        return data and b"bad\\n" + data
class Sink:
    def write(self, data):
        return os.write(1, data) if data[:1] == b"=" else len(data)
    def flush(self):
        pass
Engine().serve(Source(), Sink())
"""


@pytest.fixture
def play_code(play: Play, tmp_path: Path) -> Play:
    """Returns a function that plays a short match of an engine of this code."""

    def play_match(code: str) -> Any:
        program = tmp_path / "engine.py"
        program.write_text(code)
        options = ["--size", "5", "--max-moves", "4", "--restarts", "1"]
        return play(f"{sys.executable} {program}", "gtp_engine --policy first", *options)

    return play_match


def test_what_an_engine_prints_goes_to_standard_error(play_code: Play) -> None:
    done = play_code(ENGINE.format("; ".join(PRINTS)))
    assert done.stdout == "game 1: limit moves 4 restarts 0 0\n"
    printed = ["a thought\n", "another\n", "and more\n"]
    assert [text for text in printed if text not in done.stderr] == []


@pytest.mark.parametrize(
    "action",
    [
        pytest.param('raise KeyError("a fault of its author")', id="raises an error"),
        pytest.param("return game.moves[0].vertex", id="plays on a stone"),
        pytest.param("pass", id="returns nothing"),
        pytest.param(f"return {IN_A_THREAD}", id="uses a game in another thread"),
    ],
)
def test_wrong_engine_ends_with_a_traceback(action: str, play_code: Play) -> None:
    done = play_code(ENGINE.format(action))
    assert done.stdout == "game 1: abandoned black moves 2 restarts 1 0\n"
    assert done.stderr.count("Traceback (most recent call last)") >= 2


def test_engine_serves_on_after_a_wrong_answer_of_an_own_command(play_code: Play) -> None:
    done = play_code(OWN_COMMAND)
    assert done.stdout == "game 1: limit moves 4 restarts 0 0\n"
    error = "Engine: the command bad: its answer is wrong: text: 5 is neither str nor bytes\n"
    assert done.stderr.count(error) > 4


# ---- the program that plays matches


@pytest.fixture
def play_example(gtp_engine: Path, environment: Dict[str, str]) -> Play:
    """Returns a function that plays a match by the example."""

    def play_match(*words: object) -> Any:
        command = [sys.executable, EXAMPLES / "play_match.py", *words]
        return run(command, cwd=TOP, env=environment, timeout=LIMIT)

    return play_match


def test_random_match_is_that_of_twogtp(match: Match, play: Play, play_example: Play) -> None:
    done = play_example(*match)
    outcome = (0, match.by_twogtp(play).stdout, "")
    assert (done.returncode, done.stdout, done.stderr) == outcome


@pytest.mark.parametrize(
    "rare",
    [
        pytest.param(ENDLESS, id="endless"),
        pytest.param(REFUSED, id="refused"),
        pytest.param(Match(5, 0, "no_such_program", "cat"), id="no program"),
        pytest.param(Match(9, 1, "gtp_engine", "cat"), id="a program that is no engine"),
    ],
)
def test_rare_match_is_that_of_twogtp(rare: Match, play: Play, play_example: Play) -> None:
    done = play_example(*rare)
    outcome = (0, rare.by_twogtp(play).stdout, "")
    assert (done.returncode, done.stdout, done.stderr) == outcome


@pytest.mark.parametrize(
    "words",
    [
        [],
        ["9", "0", "cat"],
        ["26", "0", "cat", "cat"],
        ["9", str(2**32), "cat", "cat"],
        ["x", "0", "cat", "cat"],
        ["9", "0", "cat", ""],
    ],
    ids=" ".join,
)
def test_mistake_in_the_arguments_is_one_line(words: List[str], play_example: Play) -> None:
    done = play_example(*words)
    assert (done.returncode, done.stdout, len(done.stderr.splitlines())) == (1, "", 1)
