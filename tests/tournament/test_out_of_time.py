"""Moves that take too long: what ends them, what comes of a loss on time, and what processors
worked for a move."""
from __future__ import annotations

import json
import os
import re
import select
import sys
from typing import List, NamedTuple, Optional

import pytest

from .inside import module
from .notes import Between, notes_of
from .runner import RANDOM, SMALL, Runner, engines
from .timed import BEGIN, ENGINE, PLAIN, answer, begin, talk

# ---- out of time


def test_engine_out_of_time_is_ended_and_not_started_again(runner: Runner) -> None:
    # not told of the clock, and timed; half a second is left
    between = begin(runner, "play", "hang", "1 black D4 599.5\n", clock="absolute 600")
    said = "between: black: out of time at '4 genmove b'\n"
    assert talk(between, f"{BEGIN}, 4 genmove b") == (124, "=1 \n\n=2 \n\n=3 \n\n", said)
    assert between.notes()[1:] == ["0 black started S", *thinks_and_is_out("4 genmove b")]
    again = between.run("1 boardsize 9\n2 quit\n")
    assert again == (124, "", "between: black: it was late, and isn't started again\n")


def thinks_and_is_out(command: str) -> List[str]:
    """Returns the notes of a first move that is out of time."""
    return ["1 black thinks", f"1 black out-of-time S: {command}"]


@pytest.mark.parametrize(
    "clock, move_limit, event",
    [
        pytest.param("absolute 600", "0.5", "late", id="the limit of a move"),
        pytest.param("absolute 0.5", "600", "out-of-time", id="the clock"),
    ],
)
def test_what_is_over_first_ends_a_move(
    clock: str, move_limit: str, event: str, runner: Runner
) -> None:
    between = begin(runner, PLAIN, "hang", clock=clock, move_limit=move_limit)
    assert talk(between, f"{BEGIN}, 4 genmove b").status == 124
    assert between.notes()[-1] == f"1 black {event} S: 4 genmove b"


def test_other_answers_have_their_own_limit(runner: Runner) -> None:
    engine = "read x; printf '=\\n\\n'; read x; sleep 1000"
    between = Between(runner, "sh", "-c", engine, clock="absolute 0.1", limit="1")
    assert talk(between, "name, clear_board").status == 124
    assert between.notes()[-1] == "1 black late S: list_commands"


@pytest.fixture
def lost_on_time(runner: Runner) -> Runner:
    """Returns what has played a game in which `one`, with Black, lost on time at its second move.

    A slow machine moves within four seconds.
    """
    hangs = f"{runner.script('engine', ENGINE)} {PLAIN} A1 hang"
    both = engines(one=hangs, two=f"{RANDOM} %s")
    clock = ["--clock", "byoyomi 0 4 1", "--seeds", "1"]
    assert runner.tournament("plan", "all", *both, *clock, *SMALL).status == 0
    runner.pass_trials()
    assert runner.tournament("game", "all", "1_one_two").status == 0
    return runner


def test_loss_on_time_is_a_result_and_not_played_again(lost_on_time: Runner) -> None:
    before = lost_on_time.games()
    asked = lost_on_time.folder / "asked"
    asked.write_text(asked.read_text()[:-2])  # so that it begins with its first move again
    done = lost_on_time.tournament("play", "all", "--again", "--jobs", "1")
    assert (done.status, done.errors) == (0, "")
    assert done.output.splitlines()[-1] == "2 of 2 games have a result"
    after = lost_on_time.games()
    assert after.pop("1_two_one").startswith("game 1: abandoned white ")
    assert after == before
    for place in (lost_on_time.folder / "all/notes").iterdir():
        place.unlink()  # which alone tell how the sides were abandoned
    assert lost_on_time.tournament("play", "all").status == 1


def test_loss_on_time_counts_as_one(lost_on_time: Runner) -> None:
    result = "abandoned black moves 2 restarts 2 0"
    assert lost_on_time.games()["1_one_two"].splitlines()[0] == f"game 1: {result}"
    assert notes_of(lost_on_time, "1_one_two")[-5].startswith("3 black out-of-time ")
    lines = lost_on_time.tally("all").output.splitlines()
    assert "Black won 0, White 1; 0 by resignation, 0 by forfeit, 1 on time" in lines
    assert lines[lines.index("to look into:") + 1] == "  one: time: 1"
    (game,) = lost_on_time.tournament("export", "all", "--jsonl").output.splitlines()
    assert (json.loads(game)["winner"], json.loads(game)["verdict"]) == ("white", "abandoned black")
    tags = lost_on_time.tournament("export", "all", "--pgn").output.splitlines()
    assert {'[Result "1-0"]', '[Termination "time forfeit"]'} < set(tags)
    assert lost_on_time.tournament("export", "all", "--sgf", "records").status == 0
    assert "RE[W+T]" in lost_on_time.files("records")["1_one_two.sgf"]


def test_last_millisecond_counts_for_the_engine() -> None:
    read_clock = module("relay.clock").read_clock
    side = module("relay.timing").Timing(read_clock("byoyomi 0 5 1"), 0)
    side.charge(5.02, is_move=True)  # it was there at the last look
    assert side.seconds_left() == 5
    side.charge(5.02, is_move=False)  # and here the engine ended
    assert side.seconds_left() == 0


# It waits for further input before it answers time_left, and makes a file `early` where that comes.
WAITS_FOR_MORE = f"""\
#!{sys.executable}
import os, select, sys
while data := os.read(0, 65536):
    lines = data.decode().splitlines()
    for line in lines:
        if "time_left" in line and (line != lines[-1] or select.select([0], [], [], 0.5)[0]):
            open("early", "w")
        text = {{"list_commands": "time_left", "genmove b": "D4"}}.get(line, "")
        os.write(1, f"= {{text}}".encode() + bytes([10, 10]))
        if line == "quit":
            sys.exit()
"""


def test_genmove_waits_for_the_answer_to_time_left(runner: Runner) -> None:
    between = Between(runner, runner.script("waits", WAITS_FOR_MORE), clock="absolute 600")
    assert talk(between, "clear_board, genmove b, quit").output == "= \n\n= D4\n\n= \n\n"
    assert not (runner.folder / "early").exists()


class Talk(NamedTuple):
    """A conversation in which no time is left, with what was read of the engine."""

    read: List[bytes]

    def seconds_to_wait(self) -> float:
        return 0

    def from_engine(self, data: bytes) -> bytes:
        self.read.append(data)
        return b""

    def take_released(self) -> bytes:
        return b""


class Pipes(NamedTuple):
    """What stands for an engine, by its output, and for a game, which waits for no more."""

    output: int
    input: Optional[int] = None

    def wait(self, seconds: float, reads: List[int], writes: List[int]) -> List[int]:
        return select.select(reads, writes, [], seconds)[0]


@pytest.mark.parametrize("written", [b"= D4\n\n", b""], ids=["an answer", "no answer"])
def test_answer_that_is_there_where_no_time_is_left_is_looked_at(
    written: bytes, monkeypatch: pytest.MonkeyPatch
) -> None:
    between, (output, engine), (stdin, _) = module("relay.between"), os.pipe(), os.pipe()
    monkeypatch.setattr(between, "STDIN", stdin)
    monkeypatch.setattr(between, "STDOUT", engine)
    os.write(engine, written)
    talk = Talk([])
    assert between.Relay(Pipes(output), talk, Pipes(output)).run()  # it is late in the end
    assert talk.read == [written] * bool(written)


# ---- the processor

# It and a child of it count until the processor has worked 0.3 seconds for each, and the same
# before they are asked for a move.
WORKS = f"""\
#!{sys.executable}
import os, sys, time
def work():
    until = time.process_time() + 0.3
    while time.process_time() < until:
        pass
work()
for line in sys.stdin:
    if "genmove" in line:
        child = os.fork()
        work()
        if not child:
            os._exit(0)
        os.waitpid(child, 0)
    print("= pass", end=chr(10) * 2, flush=True)
"""


@pytest.mark.parametrize("limit", ["clock", "move_limit"])
def test_work_of_processors_is_noted(limit: str, runner: Runner) -> None:
    value = {"clock": "absolute 1000", "move_limit": "1000"}[limit]
    shell = ["sh", "-c", f"{runner.script('works', WORKS)}; true"]  # below which the engine runs
    between = Between(runner, *shell, **{limit: value})
    process = between.start()
    for _ in range(2):
        assert process.stdin
        process.stdin.write("genmove b\n")
        process.stdin.flush()
        assert answer(process) == "= pass\n\n"
    notes = [line.split(" ") for line in between.place.read_text().splitlines()]
    moves = [words for words in notes if words[2:3] == ["pass"]]
    assert [words[4] for words in moves] == ["cpu", "cpu"]
    assert 0.58 <= float(moves[1][5]) < 0.88  # of two processes, and not of the start


def test_work_of_processors_is_that_of_a_late_move_too(runner: Runner) -> None:
    between = begin(runner, PLAIN, "hang", clock="absolute 600", move_limit="0.5")
    talk(between, f"{BEGIN}, 4 genmove b")
    note = r"1 black late \d+\.\d{3} cpu \d\.\d\d: 4 genmove b"
    assert re.fullmatch(note, between.place.read_text().splitlines()[-1])


def test_work_of_processors_in_a_game_is_added_up(lost_on_time: Runner) -> None:
    *notes, thought, _ = notes_of(lost_on_time, "1_one_two")
    text = "\n".join(notes)
    black, white = (
        sum(map(float, re.findall(rf"{side} .* cpu (\d+\.\d\d)", text)))
        for side in ("black", "white")
    )
    assert thought.endswith(f"; cpu {black:.2f}, {white:.2f}")
