"""The notes of a game: its moves as they are played, and what tally and export read of them."""
from __future__ import annotations

import calendar
import json
import os
import re
import subprocess
import time
from typing import Dict, List, Sequence, Tuple

import pytest

from .misbehaving import HANGS
from .notes import notes_of, record_of, without_seconds
from .runner import RANDOM, Played, Runner, engines, kill
from .written import write_plan, write_result

ONE_GAME = ["--seeds", "1", "--jobs", "1", "--", "--size", "9"]

# ---- what notes say


def write_notes(runner: Runner, game: str, verdict: str, *notes: str) -> None:
    """Writes the result of a game in the tournament `all`, and its notes."""
    write_result(runner.folder / "all", game, verdict, "D4 D5 D6")
    lines = [f"{game} on here", *notes, f"result: {verdict}"]
    (runner.folder / "all/notes").mkdir(exist_ok=True)
    runner.write(f"all/notes/{game}", "".join(f"{line}\n" for line in lines))


# a note, and the seconds of thought that it adds: to Black's, and to White's
THOUGHT: Dict[str, Tuple[float, float]] = {
    "2 white E5 0.5": (0, 0.5),
    "2 white E5 0.5 cpu 0.25": (0, 0.5),
    "3 black failed 0.25": (0.25, 0),
    "5 black late 5.5: 12 genmove b": (5.5, 0),
    "5 black out-of-time 5.5 cpu 0.25: 12 genmove b": (5.5, 0),
    "5 white waited 2.5: 12 genmove w": (0, 2.5),
    "5 black ended 1.5: 12 genmove b: exit status 3": (1.5, 0),
    "5 black late 5.5: 12 play black D4": (0, 0),
    "5 black late 5.5: 12 known_command genmove": (0, 0),
    "5 black ended 1.5: 12 clear_board: signal 11": (0, 0),
    "0 black started 0.5": (0, 0),
    "1 black D4 opening": (0, 0),
}


def test_thinking_time_is_that_of_moves(runner: Runner) -> None:
    write_plan(runner.folder / "all", "ab", len(THOUGHT))
    for seed, note in enumerate(THOUGHT, 1):
        write_notes(runner, f"{seed}_a_b", "B+R moves 3 restarts 0 0", note)
    rows = runner.tournament("export", "all", "--jsonl").output.splitlines()
    times = [(row["black_seconds"], row["white_seconds"]) for row in map(json.loads, rows)]
    assert dict(zip(THOUGHT, times)) == THOUGHT


@pytest.mark.parametrize(
    "notes, restarts, blamed",
    [
        pytest.param(
            ["3 black late 5.0: 12 genmove b", "0 black stays ended", "0 black stays ended"],
            "2 0",
            {"a": {"late": 1}},
            id="Black is late",
        ),
        pytest.param(
            ["12 white late 5.0: 12 genmove w", "0 white stays ended"],
            "0 2",
            {"b": {"late": 1, "crashes": 1, "restarts": 1}},
            id="White is late",
        ),
        pytest.param(
            ["3 black ended 1.5: 12 genmove b: signal 11"] * 2,
            "2 0",
            {"a": {"abandoned": 1, "crashes": 3, "restarts": 2}},
            id="Black crashes",
        ),
        pytest.param(
            ["0 black not started: /a black late engine: No such file or directory"],
            "2 0",
            {"a": {"abandoned": 1, "crashes": 3, "restarts": 2}},
            id="the name of an engine",
        ),
        pytest.param(
            ["3 black waited 5.0: 12 x white late 1 black stays ended"],
            "2 0",
            {"a": {"abandoned": 1, "crashes": 3, "restarts": 2}},
            id="the text of a command",
        ),
        pytest.param(
            ["thought: black late 5.0, black stays 1.0"],
            "2 0",
            {"a": {"abandoned": 1, "crashes": 3, "restarts": 2}},
            id="no note",
        ),
    ],
)
def test_late_side(
    notes: List[str], restarts: str, blamed: Dict[str, Dict[str, int]], runner: Runner
) -> None:
    side = "white" if restarts == "0 2" else "black"
    write_plan(runner.folder / "all", "ab", 1)
    write_notes(runner, "1_a_b", f"abandoned {side} moves 3 restarts {restarts}", *notes)
    tally = json.loads(runner.tally("all", "--json").output)
    found = {engine["name"]: engine["to_look_into"] for engine in tally["engines"]}
    assert found == {name: blamed.get(name, {}) for name in "ab"}


# ---- games that are played to their end


def thought_in(notes: Sequence[str]) -> List[float]:
    """Returns the sums of Black's and of White's seconds in notes of moves."""
    return [
        sum(float(line.split()[3].rstrip(":")) for line in notes if f" {colour} " in line)
        for colour in ("black", "white")
    ]


def check_times(line: str, notes: Sequence[str]) -> None:
    """Fails unless the last but one line says how long both thought by these notes."""
    found = re.fullmatch(r"thought: black (\d+\.\d{3}), white (\d+\.\d{3})", line)
    assert found
    assert list(map(float, found.groups())) == pytest.approx(thought_in(notes), abs=0.0006)


def test_notes_have_the_moves_and_times(small: Played) -> None:
    for game, result in small.runner.games().items():
        line, record = result.splitlines()
        head, *started, thought, end = notes = notes_of(small.runner, game)
        moves = started[2:]
        assert head == f"{game} on {os.uname().nodename}"
        assert sorted(map(without_seconds, started[:2])) == [
            "0 black started S",
            "0 white started S",
        ]
        assert record_of(notes) == record.split()
        colours = [move.split()[1] for move in moves]
        assert colours == [("black", "white")[at % 2] for at in range(len(moves))]
        check_times(thought, moves)
        assert end == f"result: {line.removeprefix('game 1: ')}"


def test_notes_have_the_time_of_the_beginning(runner: Runner) -> None:
    before = int(time.time())
    runner.tournament("play", "all", *engines(one="gtp_engine", two="gtp_engine"), *ONE_GAME)
    after = time.time()
    for game, notes in runner.files("all/notes").items():
        line = notes.splitlines()[1]
        began = calendar.timegm(time.strptime(line, "began %Y-%m-%dT%H:%M:%SZ"))
        assert before <= began <= after, game


def test_move_that_is_refused_is_taken_back(runner: Runner) -> None:
    both = engines(one="gtp_engine", two="gtp_engine --ko positional")
    options = ["--size", "2", "--komi", "0", "--max-moves", "10"]
    runner.tournament("play", "all", *both, "--seeds", "1", "--", *options)
    line, record = runner.games()["1_one_two"].splitlines()
    notes = notes_of(runner, "1_one_two")
    assert line == "game 1: B+F(refused play) moves 7 restarts 0 0"
    assert record_of(notes) == record.split()
    taken_back = ["7 black A1 S", "7 black undone"] * 3 + ["7 black A1 S"]
    assert [without_seconds(line) for line in notes if line.startswith("7 ")] == taken_back


def test_with_direct_there_are_none(runner: Runner) -> None:
    both = engines(one=f"{RANDOM} %s", two="gtp_engine")
    assert runner.tournament("play", "all", *both, "--direct", *ONE_GAME).status == 0
    assert runner.files("all/notes") == {}
    said = "which side was late is known only where `between` stands"
    advice = "leave out --late, and --abandoned is for all"
    assert runner.tally("all", "--late", "loses") == (2, "", f"tally: {said}: {advice}\n")


# ---- games that aren't

PATIENT = 600  # seconds that no game here takes


def begin(runner: Runner, limit: int = PATIENT) -> subprocess.Popen[str]:
    """Begins a game whose Black doesn't answer its third genmove, and waits for that."""
    hangs = runner.script("hangs", HANGS)
    both = engines(one=f"{hangs} 3", two="./hangs 9")
    process = runner.start("tournament", "play", "all", *both, "--limit", limit, *ONE_GAME)
    place = runner.folder / "all/notes/1_one_two"
    runner.wait_until(lambda: place.exists() and "5 black thinks\n" in place.read_text())
    return process


def check_unfinished(runner: Runner, *end: str) -> None:
    """Fails unless the notes have all moves, who was waited for, and these last lines."""
    assert runner.is_idle()
    notes = notes_of(runner, "1_one_two")
    assert record_of(notes) == ["A1", "A9", "B1", "B9"]
    last = notes.index("5 black thinks") + 1
    if end:
        waited, thought, why = notes[last:]
        assert without_seconds(waited) == "5 black waited S: 8 genmove b"
        check_times(thought, [*notes[3 : last - 1], waited])
        assert why.partition(";")[0] == f"no result: {end[0]}"


def test_everything_is_killed(runner: Runner) -> None:
    begin(runner)
    runner.kill_all()
    check_unfinished(runner)


def test_twogtp_is_killed(runner: Runner) -> None:
    process = begin(runner)
    (twogtp,) = runner.named("twogtp")
    kill(twogtp)
    runner.wait_until(lambda: notes_of(runner, "1_one_two")[-1].startswith("no result: "))
    process.terminate()
    runner.finish(process)
    check_unfinished(runner, "ended by signal 9")


def test_process_of_the_game_is_killed(runner: Runner) -> None:
    process = begin(runner)
    (game,) = runner.named("game 1_one_two")
    kill(game)
    runner.wait_for("game 1_two_one")  # so the run has seen that the process is gone
    process.terminate()
    runner.finish(process)
    check_unfinished(runner)


def test_run_is_stopped(runner: Runner) -> None:
    process = begin(runner)
    process.terminate()
    runner.finish(process)
    check_unfinished(runner, "stopped")


def test_limit_of_the_game(runner: Runner) -> None:
    # in which a slow machine plays four moves
    process = begin(runner, limit=12)
    runner.wait_until(lambda: notes_of(runner, "1_one_two")[-1].startswith("no result: "))
    process.terminate()
    errors = runner.finish(process).errors.splitlines()
    check_unfinished(runner, "not over in 12 seconds")
    waited = r"one was waited for, \d+\.\d+ seconds at '8 genmove b'"
    said = f"tournament: 1_one_two: no result: not over in 12 seconds; {waited}"
    assert re.fullmatch(said, errors[0])


# ---- limits of an answer


@pytest.fixture
def late(runner: Runner) -> Runner:
    """Returns what has played two games in which `one` was late, in its third move."""
    hangs = HANGS.replace("letters=", "echo start >> starts\nletters=", 1)
    both = engines(one=f"{runner.script('hangs', hangs)} 3", two=f"{RANDOM} %s")
    # in which a slow machine moves
    limit = ["--move-limit", "4", "--jobs", "2", "--on-end", "cat > end"]
    done = runner.tournament("play", "all", *both, *limit, "--seeds", "1", "--", "--size", "9")
    *lines, last = done.output.splitlines()
    assert sorted(line.partition(": ")[2] for line in lines) == [
        "1_one_two: late black moves 4 restarts 2 0",
        "1_two_one: late white moves 5 restarts 0 2",
    ]
    assert last.startswith("2 of 2 games have a result, 2 of them unfit, abandoned or late: ")
    failed = json.loads((runner.folder / "end").read_text())["failed"]
    assert failed == {"1_one_two": "late black", "1_two_one": "late white"}
    assert done.status == 1
    return runner


def tallied(runner: Runner, *words: str) -> List[str]:
    """Returns what a tally says of sides that lose or have no winner, and of the engine `one`."""
    output = runner.tally("all", *words).output
    return [
        line.removeprefix("no winner: 0 drawn, 0 at the limit of moves, 0 unfit, ").strip()
        for line in output.splitlines()
        if line.startswith(("Black won", "no winner", "  one"))
    ]


def test_late_side_is_abandoned(late: Runner) -> None:
    results = {game: text.splitlines()[0][8:] for game, text in late.games().items()}
    assert results == {
        "1_one_two": "abandoned black moves 4 restarts 2 0",
        "1_two_one": "abandoned white moves 5 restarts 0 2",
    }
    # once for its trial, and once for each game
    assert len((late.folder / "starts").read_text().splitlines()) == 3
    notes = notes_of(late, "1_one_two")[-5:]
    assert list(map(without_seconds, notes)) == [
        "5 black late S: 8 genmove b",
        *["0 black stays ended"] * 2,
        "thought: black S, white S",
        "result: abandoned black moves 4 restarts 2 0",
    ]
    log = (late.folder / "all/logs/1_one_two").read_text()
    assert log.count("between: black: it was late, and isn't started again\n") == 2
    why = '1 unanswered, "8 genmove b": its output ended, exit status 124; it wrote ""'
    assert [line for line in log.splitlines() if "8 genmove b" in line] == [
        "between: black: no answer in time to '8 genmove b'",
        f"twogtp: game 1: black: {why}",
    ]


def test_late_side_in_the_tally(late: Runner) -> None:
    nobody = "Black won 0, White 0; 0 by resignation, 0 by forfeit"
    others = "Black won 1, White 1; 0 by resignation, 0 by forfeit, 2 late"
    half = ("--abandoned", "half")
    for words in ("--abandoned half", "--abandoned=loses --late half", "--abandoned out"):
        said = [nobody, "0 abandoned, 2 late", "one: late: 2"]
        assert tallied(late, *words.split()) == said
    assert "restart" not in late.tally("all").output
    for words in ("", "--abandoned loses", "--abandoned=half --late=loses"):
        assert tallied(late, *words.split()) == [others, "0 abandoned", "one: late: 2"]
    for game, notes in late.files("all/notes").items():
        late.write(f"all/notes/{game}", notes.replace("result: abandoned", "result: other"))
    # those are of another result, and say nothing
    assert tallied(late, *half)[:3] == [nobody, "2 abandoned", "one: abandoned: 2"]
    unknown = "abandoned, and perhaps late, since there are no notes: 2"
    assert unknown in late.tally("all", *half, "--late", "loses").output.splitlines()


def test_engine_that_answers_nothing_in_time_was_not_started(runner: Runner) -> None:
    deaf = runner.script("deaf", "exec sleep 1000")
    # its first answer comes late, but in time
    text = (
        'while read -r line; do [ -n "$seen" ] || sleep 2; seen=1; echo "$line"; done | gtp_engine'
    )
    some = engines(one=str(deaf), two=str(runner.script("slow", text)), three="gtp_engine")
    runner.tournament("plan", "all", *some, "--start-limit", "6", "--seeds", "1")
    runner.pass_trials()
    done = runner.tournament("play", "all", "--jobs", "6")
    assert done.status == 1
    assert sorted(runner.games()) == ["1_three_two", "1_two_three"]
    said = re.sub(r"\d+\.\d{3} seconds", "S seconds", done.errors)
    why = "no result: one wasn't started: no answer to '1 boardsize 19' in S seconds"
    assert sorted(said.splitlines()) == [
        f"tournament: 1_{game}: {why}" for game in ("one_three", "one_two", "three_one", "two_one")
    ]


def test_engine_that_crashes_is_started_again(runner: Runner) -> None:
    hangs = runner.script("hangs", HANGS)
    # its second start crashes; the first is the trial
    text = f'echo >> "$1"\n[ "$(wc -l < "$1")" = 2 ] || exec gtp_engine\nexec {hangs} 2 SEGV'
    both = engines(one=f"{runner.script('crashes', text)} one%s", two="gtp_engine")
    runner.tournament("play", "all", *both, *ONE_GAME, "--max-moves", "5")
    assert runner.games()["1_one_two"].startswith("game 1: limit moves 5 restarts 1 0\n")
    assert list(map(without_seconds, notes_of(runner, "1_one_two")[4:8])) == [
        "2 white B1 S",
        "3 black ended S: 6 genmove b: signal 11",
        "0 black started S",
        "3 black C1 S",
    ]
    log = (runner.folder / "all/logs/1_one_two").read_text()
    assert log.count("its output ended, signal 11") == 1
