"""tournament export, of games that were written by hand."""
from __future__ import annotations

import csv
import io
import json
import re
from typing import Any, Dict, List, Optional

import pytest

from tests.references.engine import values

from .exported import ABANDONED_LOSES, BOARD, GAMES, MISSING, write_games
from .runner import Runner, engines
from .written import write_plan, write_result

HEAD = (
    "game,black,white,seed,opening,verdict,winner,moves,black_seconds,white_seconds,"
    "host,black_version,white_version,twogtp_version,rule,"
    "date,size,komi,handicap,ruleset,clock,move_limit"
)


@pytest.fixture
def written(runner: Runner) -> Runner:
    """Returns what runs the scripts where the tournament is that was written by hand."""
    write_games(runner)
    return runner


def table(text: str) -> List[Dict[str, str]]:
    """Returns the rows of a table."""
    return list(csv.DictReader(io.StringIO(text)))


def winners(rows: List[Dict[str, str]]) -> Dict[str, str]:
    """Returns who won, by the games of a table."""
    return {row["game"]: row["winner"] for row in rows}


def test_csv(written: Runner) -> None:
    words = ["--csv", "--abandoned", "half"]
    status, output, errors = written.tournament("export", "all", *words)
    assert (status, errors) == (0, MISSING)
    assert output.splitlines()[0] == HEAD
    rows = table(output)
    assert winners(rows) == {name: game.winner for name, game in GAMES.items()}
    assert [row["game"] for row in rows] == list(GAMES)  # in the plan's order
    assert rows[0] == {
        "game": "1_a_b",
        "black": "a",
        "white": "b",
        "seed": "1",
        "opening": "",
        "verdict": "B+5",
        "winner": "black",
        "moves": "3",
        "black_seconds": "2.0",
        "white_seconds": "0.25",
        "host": "far",
        "black_version": 'A, "the" 1.2',
        "white_version": "",
        "twogtp_version": "1.0",
        "rule": "abandoned, late or unfit: half",
        "date": "2026-11-30T23:59:58Z",
        "size": "9",
        "komi": "5.0",
        "handicap": "0",
        "ruleset": "Chinese",
        "clock": "",
        "move_limit": "",
    }
    # notes of another result say nothing, and those of an earlier version have no date
    assert (rows[1]["host"], rows[1]["black_seconds"]) == ("", "")
    assert (rows[7]["host"], rows[7]["date"]) == ("far", "")


def test_losers(written: Runner) -> None:
    for words in ("--csv", "--csv --abandoned loses"):
        rows = table(written.tournament("export", "all", *words.split()).output)
        assert winners(rows) == {name: game.winner for name, game in ABANDONED_LOSES.items()}
    words = "--csv --abandoned half --late loses"
    won = winners(table(written.tournament("export", "all", *words.split()).output))
    assert (won["4_a_b"], won["4_b_a"]) == ("", "black")


def lines_of_json(runner: Runner) -> List[Dict[str, Any]]:
    """Returns what is exported of the tournament `all` as lines of JSON."""
    output = runner.tournament("export", "all", "--jsonl").output
    return [json.loads(line) for line in output.splitlines()]


def test_json(written: Runner) -> None:
    rows = lines_of_json(written)
    texts = [
        {key: str("" if value is None else value) for key, value in row.items()} for row in rows
    ]
    assert texts == table(written.tournament("export", "all", "--csv").output)
    # numbers are numbers, and what isn't known is null
    values = [rows[0][key] for key in ("seed", "moves", "black_seconds", "opening")]
    assert values == [1, 3, 2.0, None]


def result_of(record: str) -> str:
    """Returns the result in a record of SGF."""
    found = re.search(r"[\]\n;]RE\[([^]]*)\]", record)
    assert found
    return found[1]


def test_sgf(written: Runner) -> None:
    words = ["--sgf", "deep/records"]
    assert written.tournament("export", "all", *words) == (0, "", MISSING)
    records = written.files("deep/records")
    results = {name: game.sgf for name, game in ABANDONED_LOSES.items()}
    assert {name: result_of(records[f"{name}.sgf"]) for name in results} == results
    for name, game in GAMES.items():
        assert re.findall(r";([BW]\[\w*\])", records[f"{name}.sgf"]) == game.points
    head = "FF[4]GM[1]CA[UTF-8]AP[twogtp:1.0]SZ[9]RU[Chinese]KM[5]DT[2026-11-30]"
    head += "PB[a]PW[b]RE[B+5]GN[1_a_b]"
    head += 'GC[abandoned or late: loses; unfit: out\nBlack: A, "the" 1.2]C[B+5]'
    moves = ";B[df]C[1.5 s];W[ee]C[0.25 s];B[]C[0.5 s]"
    assert records["1_a_b.sgf"] == f"(;{head}\n{moves})\n"


def test_points_of_a_large_board_in_sgf(runner: Runner) -> None:
    write_plan(runner.folder / "all", "ab", 1, "option --size=25")
    moves = "A1 Z25 J9 pass"  # the lowest row is y, J is the ninth column, and row 9 the 17th
    write_result(runner.folder / "all", "1_a_b", "B+R moves 4 restarts 0 0", moves)
    runner.tournament("export", "all", "--sgf", "records")
    record = runner.files("records")["1_a_b.sgf"]
    assert record.endswith("\n;B[ay];W[ya];B[iq];W[])\n")


HANDICAPS = [
    (size, stones)
    for size in (7, 8, 9, 13, 19)
    for stones in range(2, 10)
    if values.handicap_points(size, stones)
]


@pytest.mark.parametrize("size, stones", HANDICAPS)
def test_handicap_stones_in_sgf(size: int, stones: int, runner: Runner) -> None:
    # which are also those of the board on which openings are judged
    options = [f"option --size={size}", f"option --handicap={stones}"]
    write_plan(runner.folder / "all", "ab", 1, *options)
    write_result(runner.folder / "all", "1_a_b", "B+R moves 1 restarts 0 0", "pass")
    runner.tournament("export", "all", "--sgf", "records")
    record = runner.files("records")["1_a_b.sgf"]
    found = re.search(r"AB((?:\[\w\w\])+)\n;W\[\]\)", record)
    assert found
    letters = "abcdefghijklmnopqrs"[:size]
    points = [
        f"[{letters[column - 1]}{letters[-row]}]"
        for column, row in values.handicap_points(size, stones) or []
    ]
    assert sorted(re.findall(r"\[\w\w\]", found[1])) == sorted(points)


def tags_in(output: str) -> List[Dict[str, str]]:
    """Returns the tags of each game in PGN."""
    games = re.split(r"\n(?=\[Event)", output)
    return [dict(re.findall(r'^\[(\w+) "(.*)"\]$', game, re.MULTILINE)) for game in games]


def test_pgn(written: Runner) -> None:
    output = written.tournament("export", "all", "--pgn", "--abandoned", "half").output
    games = tags_in(output)
    assert [tags["Result"] for tags in games] == [game.pgn for game in GAMES.values()]
    assert [tags["Termination"] for tags in games] == [game.termination for game in GAMES.values()]
    assert games[0] == {
        "Event": "all",
        "Site": "far",
        "Date": "2026.11.30",
        "Round": "1",
        "White": "b",
        "Black": "a",
        "Result": "0-1",
        "UTCDate": "2026.11.30",
        "UTCTime": "23:59:58",
        "Termination": "normal",
        "Verdict": "B+5",
        "Moves": "3",
        "BlackSeconds": "2.0",
        "WhiteSeconds": "0.25",
        "BlackVersion": 'A, \\"the\\" 1.2',
        "ControllerVersion": "1.0",
        "Rule": "abandoned, late or unfit: half",
        "Size": "9",
        "Komi": "5",
        "Ruleset": "Chinese",
    }
    assert games[7]["Date"] == "????.??.??" and "UTCDate" not in games[7]


def test_results_of_a_server(runner: Runner) -> None:
    folder = runner.folder / "all"
    write_plan(folder, "ab", 1, *BOARD)
    write_result(folder, "1_a_b", "W+T moves 2 restarts 0 0", "D4 E5")
    write_result(folder, "1_b_a", "B+F(left the hall) moves 1 restarts 0 0", "D4")
    rows = table(runner.tournament("export", "all", "--csv").output)
    assert [(row["verdict"], row["winner"]) for row in rows] == [
        ("W+T", "white"),
        ("B+F(left the hall)", "black"),
    ]
    games = tags_in(runner.tournament("export", "all", "--pgn").output)
    assert [(tags["Result"], tags["Termination"]) for tags in games] == [
        ("1-0", "time forfeit"),
        ("0-1", "adjudication"),
    ]
    assert runner.tournament("export", "all", "--sgf", "records").status == 0
    records = runner.files("records")
    assert [result_of(records[f"{game}.sgf"]) for game in ("1_a_b", "1_b_a")] == ["W+T", "B+F"]


def test_openings(runner: Runner) -> None:
    runner.write("openings", "C3 D4\nB2\n")
    both = engines(one="gtp_engine --policy random --seed %s", two="gtp_engine")
    options = ["--openings", "openings", "--seeds", "4", "--", "--size", "5"]
    runner.tournament("play", "all", *both, *options)
    rows = lines_of_json(runner)
    assert [row["opening"] for row in rows] == [1, 1, 2, 2] * 2
    runner.tournament("export", "all", "--sgf", "records")
    records = runner.files("records")
    for row in rows:
        _, _, moves = records[f"{row['game']}.sgf"].partition("\n;")
        assert moves.startswith({1: "B[cc];W[db]", 2: "B[bd];W"}[row["opening"]])


# ---- what can't be read or written


# the name of a machine in notes, and the seconds of a move
@pytest.mark.parametrize(
    "host, seconds",
    [
        pytest.param("f\0r", "nan", id="a zero byte"),
        pytest.param("../tried/far", "inf", id="a slash"),
        pytest.param("..", "1e999", id="a dot"),
        pytest.param("", "-1.5", id="none"),
        pytest.param("f" * 300, "1_0", id="long"),
    ],
)
def test_damaged_notes(host: str, seconds: str, written: Runner) -> None:
    end = f"result: {GAMES['1_a_b'].verdict}"
    text = f"1_a_b on {host}\n1 black D4 1.5\n2 white E5 {seconds}\n{end}\n"
    written.write("all/notes/1_a_b", text)
    row = lines_of_json(written)[0]
    known: List[Optional[object]] = [row["host"], row["black_version"]]
    assert known == [None, None]
    assert (row["black_seconds"], row["white_seconds"]) == (1.5, 0.0)
    assert written.tournament("export", "all", "--sgf", "records").status == 0
    assert len(written.files("records")) == 8


def test_versions_that_cannot_be_read(written: Runner) -> None:
    versions = written.folder / "all/tried/far/versions"
    versions.unlink()
    versions.mkdir()
    why = "no file of --sgf is left: Is a directory"
    done = written.tournament("export", "all", "--sgf", "records")
    assert done == (1, "", f"tournament: all/tried/far/versions: {why}\n")
    assert not (written.folder / "records").exists()


def test_directory_that_is_not_empty(written: Runner) -> None:
    (written.folder / "records").mkdir()
    written.write("records/9_a_b.sgf", "of others")
    said = "tournament: records isn't empty: name a new directory for --sgf\n"
    assert written.tournament("export", "all", "--sgf", "records") == (2, "", said)
    assert written.files("records") == {"9_a_b.sgf": "of others"}


def test_empty_directory(written: Runner) -> None:
    (written.folder / "empty").mkdir()
    assert written.tournament("export", "all", "--sgf", "empty")[:2] == (0, "")
    assert len(written.files("empty")) == 8


@pytest.mark.parametrize("place", ["deep/records", "empty"])
def test_no_record_is_left_where_one_cannot_be_written(place: str, written: Runner) -> None:
    write_result(written.folder / "all", "2_a_b", "0 moves 360 restarts 0 0", "A1 " * 359 + "A1")
    (written.folder / "empty").mkdir()
    done = written.shell('ulimit -f 1; tournament export all --sgf "$1"', place)
    said = f"tournament: {place}: no file of --sgf is left: File too large\n"
    assert done == (1, "", said)
    assert written.files("empty") == {}
    assert not (written.folder / "deep/records").exists()
