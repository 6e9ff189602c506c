"""The examples in C play whole games and matches as twogtp does, and leave no memory."""
from __future__ import annotations

import re
from pathlib import Path
from subprocess import CompletedProcess
from typing import Iterator, List, NamedTuple

import pytest

from tests.shared.processes import TOP, run

from . import each_call
from .compiling import HEADER_FOLDER, WARNINGS, check_compiles
from .games import ENDLESS, LIMIT, REFUSED, Match, Play, check_conversations

pytestmark = pytest.mark.cc

LONGEST = {"random_engine": 60, "play_match": 60, "uct_engine": 120}  # lines of an example


class Examples(NamedTuple):
    """The folder of the programs that the examples are compiled to."""

    folder: Path

    @property
    def engine(self) -> str:
        """Returns the command of the engine that plays at random."""
        return str(self.folder / "random_engine")

    @property
    def searching(self) -> str:
        """Returns the command of the engine that searches a tree."""
        return str(self.folder / "uct_engine")

    @property
    def match(self) -> str:
        """Returns the command of the match."""
        return str(self.folder / "play_match")


def compiled(folder: Path, archive: Path, *flags: str) -> Examples:
    """Returns the examples, which are C99 without a warning."""
    for name in LONGEST:
        source = TOP / f"library/examples/{name}.c"
        options = ["-std=c99", "-D_POSIX_C_SOURCE=200809L", "-O2", *WARNINGS, HEADER_FOLDER]
        check_compiles(
            ["cc", *options, *flags, "-o", folder / name, source, archive, "-lm"], folder
        )
    return Examples(folder)


@pytest.fixture(scope="module")
def examples(archive: Path, tmp_path_factory: pytest.TempPathFactory) -> Examples:
    """Returns the examples."""
    return compiled(tmp_path_factory.mktemp("examples"), archive)


@pytest.fixture(scope="module")
def engine(examples: Examples) -> str:
    """Returns the command of the engine that plays at random."""
    return examples.engine


@pytest.fixture
def play_example(examples: Examples, gtp_engine: Path, environment: dict[str, str]) -> Play:
    """Returns a function that plays a match by the example."""

    def play_match(size: int, half_komi: int, black: str, white: str) -> CompletedProcess[str]:
        command = [examples.match, str(size), str(half_komi), black, white]
        return run(command, cwd=TOP, env=environment, timeout=LIMIT)

    return play_match


@pytest.mark.parametrize("name", LONGEST)
def test_example_is_short(name: str) -> None:
    source = TOP / f"library/examples/{name}.c"
    assert len(source.read_text().splitlines()) <= LONGEST[name]


# ---- the engines


def scored(output: str) -> str:
    """Returns the lines of games without the number of their moves and the score."""
    line = r"^(game [0-9]+): ([BW]\+[0-9.]+|0) moves [0-9]+"
    return re.sub(line, r"\1: scored", output, flags=re.MULTILINE)


def test_engine_plays_whole_games(examples: Examples, play: Play) -> None:
    sides = [f"{examples.engine} 7", f"{examples.engine} 8"]
    done = play(*sides, "--why", "--size", "9", "--games", "3")
    assert scored(done.stdout) == "".join(f"game {it}: scored restarts 0 0\n" for it in (1, 2, 3))
    assert done.stderr == ""


@pytest.mark.parametrize("genmoves, kept", [(3, 0), (5, 1), (4, 3), (9, 100)])
def test_game_goes_on_where_the_engine_is_killed(
    genmoves: int, kept: int, examples: Examples, play: Play
) -> None:
    # each time at this genmove, and after so many bytes of the reply
    black = f"{TOP}/tests/engines/hostile/dies {genmoves} {kept} {examples.engine} 7"
    white = "gtp_engine --policy random --seed 8"
    done = play(black, white, "--why", "--size", "7", "--restarts", "1000")
    assert re.fullmatch(r"game 1: scored restarts ([2-9]|[1-9][0-9]+) 0\n", scored(done.stdout))
    lines = done.stderr.splitlines()
    assert [it for it in lines if not it.startswith("twogtp: game 1: black: ")] == []


@pytest.mark.parametrize("engine", ["random_engine", "uct_engine 8"])
def test_gtp_check_finds_nothing(engine: str, examples: Examples, gtp_check: Path) -> None:
    done = run([gtp_check, "--quick", f"{examples.folder}/{engine}"], timeout=LIMIT)
    assert done.returncode == 0
    assert done.stdout.endswith(", 0 complaints\n")


def test_engine_is_the_reference_on_random_conversations(
    request: pytest.FixtureRequest, examples: Examples
) -> None:
    count = request.config.getoption("--count") or 2
    check_conversations([examples.engine, "3"], count)


def test_engine_that_searches_wins(examples: Examples, play: Play) -> None:
    sides = [f"{examples.searching} 400 7", f"{examples.engine} 8"]
    done = play(*sides, "--why", "--size", "7", "--komi", "4.5", "--games", "3")
    line = r"^game [0-9]: ([BW]\+)[0-9.]+ moves [0-9]+ restarts 0 0$"
    assert re.findall(line, done.stdout, re.MULTILINE) == ["B+"] * 3
    assert done.stderr == ""


# ---- what is left


@pytest.fixture(scope="module")
def sanitized(archive: Path, tmp_path_factory: pytest.TempPathFactory) -> Examples:
    """Returns the examples under a sanitizer, which reports what memory is left."""
    folder = tmp_path_factory.mktemp("sanitized")
    if not each_call.runs(each_call.MEMORY, folder):
        pytest.skip("the sanitizer does not run here")
    sanitizer = f"-fsanitize={each_call.MEMORY}"
    return compiled(folder, archive, "-g", sanitizer, "-fno-sanitize-recover=all")


# boards of each kind, passes, a game that is taken back, and what is no command
COMMANDS = """\
boardsize 7
genmove b
genmove w
undo
no_command
play b pass
play w pass
genmove b
boardsize 1
genmove b
boardsize 25
genmove w
"""


@pytest.mark.parametrize(
    "text",
    [
        pytest.param(f"{COMMANDS}quit\n", id="a quit"),
        pytest.param(COMMANDS, id="the end of the input"),
        pytest.param("quit\n", id="a quit before all else"),
        pytest.param("", id="no input"),
    ],
)
@pytest.mark.parametrize("engine", [["random_engine"], ["uct_engine", "50"]], ids="-".join)
def test_engine_leaves_no_memory(engine: List[str], text: str, sanitized: Examples) -> None:
    name, *options = engine
    done = run([sanitized.folder / name, *options], text, timeout=LIMIT)
    assert (done.returncode, done.stderr) == (0, "")


@pytest.mark.parametrize(
    "white", ["gtp_engine --policy random", "gtp_engine --fault stop:3", "true"]
)
def test_match_leaves_no_memory(
    white: str, sanitized: Examples, gtp_engine: Path, environment: dict[str, str]
) -> None:
    # also where an engine fails, whose reason is on the standard error
    command = [sanitized.match, "7", "15", "gtp_engine --policy random --seed 2", white]
    done = run(command, env=environment, timeout=LIMIT)
    assert (done.returncode, done.stdout.count("\n")) == (0, 1)
    assert [it for it in done.stderr.splitlines() if not it.startswith(f"{white}: ")] == []


# ---- the example of a match beside twogtp


@pytest.mark.parametrize("seed", range(1, 6))
def test_game_is_that_of_twogtp(
    seed: int, examples: Examples, play: Play, play_example: Play
) -> None:
    black, white = f"{examples.engine} {seed}", f"gtp_engine --policy random --seed {seed}"
    wanted = play(black, white, "--size", "9", "--komi", "7.5")
    done = play_example(9, 15, black, white)
    outcome = (wanted.returncode, wanted.stdout, wanted.stderr)
    assert (done.returncode, done.stdout, done.stderr) == outcome


# An engine that does one thing wrong: at a command of this name it writes this, with the command's
# id for ID and a space for _.
WRONG_ENGINE = r"""#!/bin/bash
while read -r id name _; do
    reply='=ID pass'
    [ "$name" != "$1" ] || reply=${2//_/ }
    printf '%b\n\n' "${reply//ID/$id}"
done
"""


@pytest.mark.parametrize(
    "command, reply, end, reason",
    [
        ("boardsize", "?ID", "unfit black", "unfit"),
        ("genmove", "?ID", "W+F(no move)", "no move"),
        ("genmove", "=ID_hello", "W+F(no vertex)", "no vertex"),
        ("genmove", "=ID_Z25", "W+F(illegal move)", "off the board"),
        ("genmove", "=ID_A1", "W+F(illegal move)", "occupied"),
        ("genmove", "=99_A1", "abandoned black", "wrong id"),
        ("play", "?ID", "W+F(refused play)", "refuses a play"),
    ],
)
def test_wrong_reply_ends_the_game_as_by_twogtp(
    command: str,
    reply: str,
    end: str,
    reason: str,
    play: Play,
    play_example: Play,
    tmp_path: Path,
) -> None:
    engine = tmp_path / "engine"
    engine.write_text(WRONG_ENGINE)
    engine.chmod(0o755)
    line = play(f"{engine} {command} {reply}", "gtp_engine", "--size", "9", "--komi", "0").stdout
    done = play_example(9, 0, f"{engine} {command} '{reply}'", "gtp_engine")
    assert done.stdout == line
    assert done.stdout.count(end) == 1
    assert {re.sub(".*': ", "", it) for it in done.stderr.splitlines()} == {reason}


# What --why writes of a loss, and what the example does. How twogtp notices the end of an engine
# depends on which of the two is faster.
REASONS = {
    "its output ended": "its output ended",
    "writing failed": "its output ended",
    "not a GTP reply": "no reply",
    "the play was refused; ": "refuses a play",
    "no end of a reply in": "overlong",
}


def losses(match: Match, errors: str) -> Iterator[str]:
    """Yields for the lines of --why the engine's command and the reason, as the example does."""
    for line in errors.splitlines():
        for cause, reason in REASONS.items():
            if found := re.match(f"twogtp: game 1: (black|white): .*: {cause}", line):
                yield f"{getattr(match, found[1])}: {reason}"


def test_random_match_is_that_of_twogtp(match: Match, play: Play, play_example: Play) -> None:
    wanted, done = match.by_twogtp(play, "--why"), play_example(*match)
    assert done.stdout == wanted.stdout
    assert done.stderr.splitlines() == [*losses(match, wanted.stderr)]


@pytest.mark.parametrize("rare", [ENDLESS, REFUSED], ids=["endless", "refused"])
def test_rare_match_is_that_of_twogtp(rare: Match, play: Play, play_example: Play) -> None:
    wanted, done = rare.by_twogtp(play, "--why"), play_example(*rare)
    assert done.stdout == wanted.stdout
    assert done.stderr.splitlines() == [*losses(rare, wanted.stderr)]
