"""A file that isn't a whole result is none, for each command, and its game is played again."""
from __future__ import annotations

import os
import re
from typing import Callable, Dict, List, Sequence, Set

import pytest

from .runner import RANDOM, Runner, engines
from .written import write_plan

TINY = ["--size", "2", "--max-moves", "3"]
BOTH = engines(one=f"{RANDOM} 1", two=f"{RANDOM} 2")


def first_result(runner: Runner, folder: str, options: Sequence[str]) -> bytes:
    """Returns the result of a game as it is written."""
    runner.tournament("plan", folder, *BOTH, "--seeds", "1", "--", *options)
    runner.tournament("game", folder, "1_one_two")
    return (runner.folder / folder / "games/1_one_two").read_bytes()


def write_first_games(
    runner: Runner, folder: str, whole: bytes, files: Sequence[bytes], options: Sequence[str]
) -> List[str]:
    """Makes a tournament of a seed for each of these files, which is the result of its first game.

    The other game has the whole result. Returns the names of the first games.
    """
    words = ["--direct", "--seeds", len(files), "--", *options]  # so that a game takes little time
    runner.tournament("plan", folder, *BOTH, *words)
    for seed, file in enumerate(files, 1):
        (runner.folder / folder / f"games/{seed}_one_two").write_bytes(file)
        (runner.folder / folder / f"games/{seed}_two_one").write_bytes(whole)
    return [f"{seed}_one_two" for seed in range(1, len(files) + 1)]


def check_played_again(runner: Runner, whole: bytes, names: List[str]) -> None:
    """Fails unless all commands take the results of these games for none, and play plays them."""
    assert runner.tournament("list", "all") == (0, "".join(f"{name}\n" for name in names), "")
    status, tally, _ = runner.tally("all")
    assert tally.startswith(f"{len(names)} of {2 * len(names)} games have a result")
    said = [f"  {name}: its file is damaged" for name in names]
    assert tally.partition("no result: ")[2].splitlines()[1:] == said
    assert status == 1
    done = runner.tournament("play", "all", "--jobs", "2")
    again = [f"tournament: {name}: its file is damaged, and it is played again" for name in names]
    assert sorted(done.errors.splitlines()) == sorted(again)
    assert (done.status, done.output.count("\n")) == (0, len(names) + 1)
    assert set(runner.games().values()) == {whole.decode()}
    assert runner.tournament("list", "all") == (0, "", "")


@pytest.mark.parametrize("show", [[], ["--show"]], ids=["a record", "a record and a board"])
def test_cut_at_each_byte(show: List[str], runner: Runner) -> None:
    whole = first_result(runner, "one", [*TINY, *show])
    files = [whole[:count] for count in range(len(whole))]
    names = write_first_games(runner, "all", whole, files, [*TINY, *show])
    check_played_again(runner, whole, names)


def with_verdict(verdict: bytes) -> Callable[[bytes], bytes]:
    """Returns what puts a verdict into a result."""
    return lambda whole: re.sub(rb"game 1: \S+", b"game 1: " + verdict, whole)


def with_last_move(move: bytes) -> Callable[[bytes], bytes]:
    """Returns what puts a last move into a result."""
    return lambda whole: re.sub(rb" \S+\n\Z", move + b"\n", whole)


def with_counts(counts: str) -> Callable[[bytes], bytes]:
    """Returns what puts numbers of moves and restarts into a result."""
    return lambda whole: re.sub(rb" moves .*", b" " + counts.encode(), whole)


MANY = 5000 * "0"
DAMAGES: Dict[str, Callable[[bytes], bytes]] = {
    "empty": lambda whole: b"",
    "an empty line": lambda whole: b"\n",
    "zeros": lambda whole: bytes(len(whole)),
    "a move less": with_last_move(b""),
    "a move more": lambda whole: whole[:-1] + b" pass\n",
    "another game behind": lambda whole: whole + whole,
    "a line behind": lambda whole: whole + b"more\n",
    "another game's number": lambda whole: whole.replace(b"game 1:", b"game 2:"),
    "no such verdict": with_verdict(b"B+X"),
    "a reason with a digit": with_verdict(b"B+F(late 2)"),
    "a reason of 21 letters": with_verdict(b"B+F(aaaaaaaaaaaaaaaaaaaaa)"),
    "a forfeit without a reason": with_verdict(b"B+F()"),
    "a score that 2x2 can't have": with_verdict(b"B+0.5"),
    "a move off the board": with_last_move(b" C1"),
    "a byte that is no letter": with_last_move(b" \xc1" + b"1"),
    "too many moves": with_counts(f"moves 3{MANY} restarts 0 0"),
    "too many digits": with_counts(f"moves {MANY}3 restarts 0 0"),
    "too many restarts of Black": with_counts(f"moves 3 restarts 1{MANY} 0"),
    "too many restarts of White": with_counts(f"moves 3 restarts 0 1{MANY}"),
}


def test_other_damages(runner: Runner) -> None:
    whole = first_result(runner, "one", TINY)
    files = [damage(whole) for damage in DAMAGES.values()]
    assert whole not in files
    names = write_first_games(runner, "all", whole, files, TINY)
    check_played_again(runner, whole, names)


def test_game_plays_a_damaged_result_again(runner: Runner) -> None:
    whole = first_result(runner, "all", TINY)
    place = runner.folder / "all/games/1_one_two"
    place.write_bytes(whole[:-1])
    again = "tournament: 1_one_two: its file is damaged, and it is played again\n"
    line = "1_one_two: limit moves 3 restarts 0 0\n"
    assert runner.tournament("game", "all", "1_one_two") == (0, line, again)
    assert place.read_bytes() == whole


def test_board_is_there_only_where_it_was_asked_for(runner: Runner) -> None:
    asked = {"with": [*TINY, "--show"], "without": TINY}
    texts = {name: first_result(runner, f"one {name}", words) for name, words in asked.items()}
    for name, other in (("with", "without"), ("without", "with")):
        write_first_games(runner, name, texts[name], [texts[other]], asked[name])
        assert runner.tournament("list", name).output == "1_one_two\n"


def test_damaged_result_of_an_abandoned_side(runner: Runner) -> None:
    both = engines(one="gtp_engine --fault stop:1", two="gtp_engine")
    runner.tournament("play", "all", *both, "--seeds", "1", "--", "--size", "2")
    place = runner.folder / "all/games/1_one_two"
    place.write_bytes(place.read_bytes()[:-1])
    unable = "tournament: one: it ended at 'genmove b': exit status 4"
    passed = f"all/tried/{os.uname().nodename}/passed"
    status, output, errors = runner.tournament("play", "all")
    assert (status, output.count("\n"), errors.splitlines()) == (
        1,
        2,
        [
            f"{unable}; tried before: to try again, remove {passed}",
            "tournament: 1_one_two: its file is damaged, and it is played again",
        ],
    )
    status, output, errors = runner.tournament("play", "all", "--again")
    assert (status, output.count("\n"), errors) == (1, 3, f"{unable}\n")


# ---- the plan's board


def whole_results(runner: Runner, lines: Sequence[str], results: Sequence[str]) -> Set[str]:
    """Returns which of these results are whole with the lines of a plan."""
    folder = runner.folder / "all"
    write_plan(folder, "ab", (len(results) + 1) // 2, *lines)
    games = {
        f"{at // 2 + 1}_{'ba'[at % 2]}_{'ab'[at % 2]}": text for at, text in enumerate(results)
    }
    for game, text in games.items():
        (folder / "games" / game).write_text(f"game 1: {text}\n")
    listed = runner.tournament("list", "all")
    assert (listed.status, listed.errors) == (0, "")
    missing = set(listed.output.split())
    return {text for game, text in games.items() if game not in missing}


def scores_of(size: int, komi: float) -> Set[str]:
    """Returns the scores that a board can have, by the points of both colours."""
    points = range(size**2 + 1)
    scores = {black - white - komi for black in points for white in points[: len(points) - black]}
    return {f"{'B' if score > 0 else 'W'}+{abs(score):g}" if score else "0" for score in scores}


@pytest.mark.parametrize(
    "size, komi, written",
    [
        *((1, 0.5, text) for text in ("0.5", ".5", "+0.50")),
        *((2, 7, text) for text in ("7", "7.", "007.0")),
        *((2, -3.5, text) for text in ("-3.5", "-3.50")),
        (9, 6.5, "06.5"),
        *((10, 0, text) for text in ("-0", ".0")),
        (19, 7.5, "7.5"),
        (20, -30, "-30"),
        (25, 1000, "1000"),
    ],
)
def test_scores(size: int, komi: float, written: str, runner: Runner) -> None:
    halves = range(int(2 * (size**2 + abs(komi))) + 9)
    near = ["0", "00", *(f"{side}+{half / 2:g}" for side in "BW" for half in halves)]
    lines = [f"option --size={size}", f"option --komi={written}"]
    end = "moves 2 restarts 0 0\npass pass"
    whole = whole_results(runner, lines, [f"{verdict} {end}" for verdict in near])
    assert {result.partition(" ")[0] for result in whole} == scores_of(size, komi)


@pytest.mark.parametrize("size", [1, 2, 8, 9, 10, 11, 19, 20, 25])
def test_moves(size: int, runner: Runner) -> None:
    columns = "ABCDEFGHJKLMNOPQRSTUVWXYZ"[:size]
    near = [f"{column}{row}" for column in "ABCDEFGHIJKLMNOPQRSTUVWXYZ@[ab" for row in range(32)]
    near += ["pass", "PASS", "Pass", "resign", "", "pass1", "-", "A", "A01", "A1x"]
    end = "limit moves 3 restarts 0 0"
    places = ("{} pass A1", "A1 {} A1", "pass pass {}")
    texts = [f"{end}\n{place.format(move)}" for place in places for move in near]
    moves = ["pass", *(f"{column}{row}" for column in columns for row in range(1, size + 1))]
    legal = {f"{end}\n{place.format(move)}" for place in places for move in moves}
    assert whole_results(runner, [f"option --size={size}"], texts) == legal


@pytest.mark.parametrize(
    "option, why",
    [
        ("--size x", "size 'x'"),
        ("--size 26", "size '26'"),
        ("--size", "size ''"),
        ("--komi 6.7", "komi '6.7'"),
        ("--komi nan", "komi 'nan'"),
        ("--komi=.", "komi '.'"),
        ("--handicap 1", "handicap '1'"),
    ],
)
def test_plan_whose_board_is_impossible(option: str, why: str, runner: Runner) -> None:
    write_plan(runner.folder / "all", "ab", 1, *(f"option {word}" for word in option.split()))
    status, output, errors = runner.tournament("export", "all", "--sgf", "records")
    assert (status, output) == (2, "")
    assert errors.startswith(f"tournament: the plan has --{why}: it is ")
    assert not (runner.folder / "records").exists()


def test_results_of_another_board(runner: Runner) -> None:
    result = b"game 1: W+6.5 moves 4 restarts 0 0\nE5 J9 pass pass\n"  # of 9x9 with komi 6.5
    write_first_games(runner, "all", result, [result] * 2, ["--size", "7", "--komi", "0.5"])
    names = [f"{seed}_{both}\n" for seed in (1, 2) for both in ("one_two", "two_one")]
    assert runner.tournament("list", "all") == (0, "".join(names), "")
    assert runner.tally("all").output.startswith("0 of 4 games have a result")
    missing = "tournament: without a result, and so not exported: 4 of 4 games\n"
    for words in (["--jsonl"], ["--pgn"], ["--sgf", "records"]):
        assert runner.tournament("export", "all", *words) == (0, "", missing)
    status, output, errors = runner.tournament("export", "all", "--csv")
    assert (status, output.count("\n"), errors) == (0, 1, missing)
    assert runner.files("records") == {}
