"""Tournaments whose games begin with openings, with engines that fail in them."""
from __future__ import annotations

from typing import Dict, List, NamedTuple, Sequence

import pytest

from .notes import notes_of, record_of, without_seconds
from .runner import TWO, Runner, engines

GAME = "1_one_two"
OPENING = "E5 C3 G7 C7"
# An engine that plays as ours, but at commands that begin with some words it ends where a file
# isn't there, waits so many seconds, or refuses them so many times.
ODD = """\
#!/usr/bin/env python3
import os, subprocess, sys, time
what, amount, words = sys.argv[1:]
engine = subprocess.Popen(["gtp_engine"], stdin=subprocess.PIPE, bufsize=0)
left = amount if what == "ends" else float(amount)
for line in sys.stdin:
    number, _, command = line.strip().partition(" ")
    is_odd = command.startswith(words)
    if is_odd and what == "ends" and not os.path.exists(amount):
        open(amount, "w").close()
        os.kill(os.getpid(), 9)
    if is_odd and what == "waits":
        time.sleep(left)
    if is_odd and what == "refuses" and left:
        left -= 1
        print(f"?{number} no\\n", flush=True)
    else:
        engine.stdin.write(line.encode())
"""


def plan_of(
    runner: Runner,
    *,
    one: str = "",
    two: str = "",
    opening: str = OPENING,
    limits: Sequence[str] = (),
    options: Sequence[str] = ("--max-moves", "12"),
) -> None:
    """Makes a plan with one opening, for the odd engine with these arguments, or for ours."""
    runner.script("odd", ODD)
    runner.write("openings", opening)
    commands = [f"./odd {odd}" if odd else "gtp_engine" for odd in (one, two)]
    words = engines(one=commands[0], two=commands[1])
    plan = [*words, "--seeds", "1", "--openings", "openings", *limits]
    runner.tournament("plan", "all", *plan, "--", "--size", "9", *options)
    runner.pass_trials()


class Played(NamedTuple):
    """What comes of a game: its line without its number, its moves, and the notes."""

    line: str
    moves: List[str]
    notes: List[str]


def played(runner: Runner) -> Played:
    """Plays the game, and returns what comes of it."""
    runner.tournament("game", "all", GAME)
    line, moves = runner.games()[GAME].splitlines()
    return Played(line[8:], moves.split(), notes_of(runner, GAME))


# ---- games


def test_next_seed_has_the_next_opening(runner: Runner) -> None:
    openings = ["E5 C3 pass G7", "C3", "pass G3"]
    runner.write("openings", "\n".join(openings))
    words = [*TWO, "--seeds", "4", "--openings", "openings", "--", "--size", "9"]
    assert runner.tournament("play", "all", *words)[::2] == (0, "")
    games = runner.games()
    pairs = ("one_two", "two_one")
    assert sorted(games) == [f"{seed}_{pair}" for seed in range(1, 5) for pair in pairs]
    for game, text in games.items():
        opening = openings[(int(game[0]) - 1) % 3].split()
        moves, notes = text.splitlines()[1].split(), notes_of(runner, game)
        assert moves[: len(opening)] == opening and len(moves) > len(opening) + 9
        assert record_of(notes) == moves
        assert [line.split()[2] for line in notes if line.endswith(" opening")] == opening


def test_engines_are_asked_for_no_move_of_the_opening(runner: Runner) -> None:
    runner.script("heard", 'exec gtp_engine < <(tee -a "$1")')
    runner.write("openings", OPENING)
    words = [*engines(one="./heard one", two="./heard two"), "--openings", "openings"]
    runner.tournament("plan", "all", *words, "--", "--size", "9", "--max-moves", "6")
    runner.pass_trials()
    runner.tournament("game", "all", GAME)
    setup = ["1 boardsize 9", "2 komi 6.5", "3 clear_board"]
    opening = ["4 play b E5", "5 play w C3", "6 play b G7", "7 play w C7"]
    black, white = ((runner.folder / name).read_text().splitlines() for name in ("one", "two"))
    assert black[:8] == [*setup, *opening, "8 genmove b"]
    assert white[:9] == [*setup, *opening, "8 play b A1", "9 genmove w"]


def test_white_begins_after_a_handicap(runner: Runner) -> None:
    options = ["--handicap", "2", "--max-moves", "4"]
    plan_of(runner, opening="w E5 D5 # White first\n", options=options)
    game = played(runner)
    assert game.line == "limit moves 4 restarts 0 0"
    assert game.moves[:2] == ["E5", "D5"]
    notes = [line for line in game.notes if line.endswith(" opening")]
    assert notes == ["1 white E5 opening", "2 black D5 opening"]


# ---- engines that end, or refuse moves


@pytest.mark.parametrize(
    "side, words",
    [
        pytest.param("one", "boardsize", id="at its first command"),
        pytest.param("one", "play b E5", id="at its move of the opening"),
        pytest.param("one", "play w C3", id="at the other side's move"),
        pytest.param("one", "play b G7", id="at its last move of the opening"),
        pytest.param("one", "genmove b", id="at its first own move"),
        pytest.param("two", "play w C3", id="as White, at its move of the opening"),
        pytest.param("two", "play w C7", id="as White, at the last move of the opening"),
    ],
)
def test_game_is_the_same_with_an_engine_that_is_restarted(
    side: str, words: str, runner: Runner
) -> None:
    plan_of(runner)
    moves = played(runner).moves
    (runner.folder / "all/games" / GAME).unlink()
    plan = runner.folder / "all/plan"
    odd = f"{side} = \"./odd ends over '{words}'\""
    plan.write_text(plan.read_text().replace(f'{side} = "gtp_engine"', odd))
    runner.pass_trials()
    game = played(runner)
    restarts = {"one": "1 0", "two": "0 1"}[side]
    assert (game.line, game.moves) == (f"limit moves 12 restarts {restarts}", moves)
    assert record_of(game.notes) == moves


TAKEN_BACK = ["1 black E5 opening", "1 white refuses the opening", "1 black undone"]
C3_TAKEN_BACK = ["2 white C3 opening", "2 black refuses the opening", "2 white undone"]


@pytest.mark.parametrize(
    "odd, line, notes",
    [
        pytest.param(
            {"one": "refuses 9 'play b E5'"},
            "W+F(no move) moves 0 restarts 0 0",
            ["1 black refuses the opening"],
            id="its own first move",
        ),
        pytest.param(
            {"two": "refuses 9 'play w C7'"},
            "B+F(no move) moves 3 restarts 0 0",
            ["1 black E5 opening", "2 white C3 opening", "3 black G7 opening"]
            + ["4 white refuses the opening"],
            id="its own later move",
        ),
        pytest.param(
            {"two": "refuses 9 'play b E5'"},
            "B+F(refused play) moves 1 restarts 0 0",
            [*3 * TAKEN_BACK, *TAKEN_BACK[:2]],
            id="the other side's move",
        ),
        pytest.param(
            {"one": "refuses 2 'play w C3'"},
            "limit moves 12 restarts 0 0",
            ["1 black E5 opening", *2 * C3_TAKEN_BACK, "2 white C3 opening"]
            + ["3 black G7 opening", "4 white C7 opening"],
            id="the other side's move, twice",
        ),
    ],
)
def test_move_of_an_opening_that_is_refused(
    odd: Dict[str, str], line: str, notes: List[str], runner: Runner
) -> None:
    plan_of(runner, **odd)
    game = played(runner)
    ends = ("opening", "undone")
    assert (game.line, [note for note in game.notes if note.endswith(ends)]) == (line, notes)


# ---- the time of a move of an opening


def test_move_of_an_opening_may_take_longer_than_others(runner: Runner) -> None:
    limits = ["--move-limit", "3", "--start-limit", "60"]
    options = ["--max-moves", "3"]
    plan_of(runner, one="waits 4 'play b'", opening="E5", limits=limits, options=options)
    assert played(runner).line == "limit moves 3 restarts 0 0"


def test_engine_that_is_late_in_an_opening(runner: Runner) -> None:
    limits = ["--move-limit", "60", "--start-limit", "4"]
    plan_of(runner, one="waits 1000 'play b G7'", limits=limits)
    game = played(runner)
    assert (game.line, game.moves) == ("abandoned black moves 2 restarts 2 0", ["E5", "C3"])
    log = runner.files("all/logs")[GAME].splitlines()
    assert log[0] == "between: black: no answer in time to '6 play b G7'"
    assert [without_seconds(line) for line in game.notes[-6:-1]] == [
        "3 black thinks",
        "3 black late S: 6 play b G7",
        "0 black stays ended",
        "0 black stays ended",
        "thought: black S, white S",
    ]


def test_game_that_is_stopped_in_an_opening(runner: Runner) -> None:
    plan_of(runner, one="waits 1000 'play b G7'")
    run = runner.start("tournament", "game", "all", GAME)
    place = runner.folder / "all/notes" / GAME
    runner.wait_until(lambda: place.exists() and "3 black thinks\n" in place.read_text())
    run.terminate()
    runner.finish(run)
    assert [without_seconds(line) for line in notes_of(runner, GAME)[3:]] == [
        "1 black E5 opening",
        "2 white C3 opening",
        "3 black thinks",
        "3 black waited S: 6 play b G7",
        "thought: black S, white S",
        "no result: stopped",
    ]
    assert runner.is_idle()
