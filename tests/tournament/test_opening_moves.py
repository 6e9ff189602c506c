"""The script between with an opening, alone: what the engine is asked, and what twogtp gets."""
from __future__ import annotations

import sys
from subprocess import Popen
from typing import List, NamedTuple, Sequence

import pytest

from .notes import Between
from .runner import Runner

OPENING = "D4 E5 pass C3 G7"
# an engine that writes down what it is asked, refuses these vertices, and answers genmove by A1
PLAYS = """\
import sys
for line in sys.stdin:
    with open("asked", "a") as file:
        file.write(line)
    words = line.partition("#")[0].split()
    number = words[0] if words and words[0].isdigit() else ""
    if words and words[-1] in sys.argv[1:]:
        print(f"?{number} no\\n", flush=True)
    elif words:
        print(f"={number}{' A1' if 'genmove' in words else ''}\\n", flush=True)
"""


class Talk(NamedTuple):
    """What twogtp asks, what the engine is asked, the answers that twogtp gets, and the notes."""

    text: List[str]
    asked: List[str]
    answers: List[str]
    notes: List[str]
    refused: Sequence[str] = ()


TALKS = {
    "both sides' moves": Talk(
        ["1 clear_board", "2 genmove b", "3 play w E5", "4 genmove b", "5 play w C3"]
        + ["6 genmove b", "7 play w A9", "8 genmove b"],
        ["1 clear_board", "2 play b D4", "3 play w E5", "4 play b pass", "5 play w C3"]
        + ["6 play b G7", "7 play w A9", "8 genmove b"],
        ["=1", "=2 D4", "=3", "=4 pass", "=5", "=6 G7", "=7", "=8 A1"],
        ["1 black D4 opening", "3 black pass opening", "5 black G7 opening", "7 black A1 S"],
    ),
    "a start in the middle": Talk(
        ["1 boardsize 9", "2 clear_board", "3 play b D4", "4 play w E5", "5 genmove b"],
        ["1 boardsize 9", "2 clear_board", "3 play b D4", "4 play w E5", "5 play b pass"],
        ["=1", "=2", "=3", "=4", "=5 pass"],
        ["3 black pass opening"],
    ),
    "a start behind a pass": Talk(
        ["1 play b D4", "2 play w E5", "3 play b PASS", "4 play w C3", "5 genmove b"],
        ["1 play b D4", "2 play w E5", "3 play b PASS", "4 play w C3", "5 play b G7"],
        ["=1", "=2", "=3", "=4", "=5 G7"],
        ["5 black G7 opening"],
    ),
    "a start behind the opening": Talk(
        ["1 play b D4", "2 play w E5", "3 play b pass", "4 play w C3", "5 play b G7"]
        + ["6 play w D5", "7 genmove b"],
        ["1 play b D4", "2 play w E5", "3 play b pass", "4 play w C3", "5 play b G7"]
        + ["6 play w D5", "7 genmove b"],
        ["=1", "=2", "=3", "=4", "=5", "=6", "=7 A1"],
        ["7 black A1 S"],
    ),
    "a game that left the opening": Talk(
        ["1 genmove b", "2 play w E6", "3 genmove b"],
        ["1 play b D4", "2 play w E6", "3 genmove b"],
        ["=1 D4", "=2", "=3 A1"],
        ["1 black D4 opening", "3 black A1 S"],
    ),
    "a game that left the opening and is in it again": Talk(
        ["1 genmove b", "2 play w E6", "3 undo", "4 play w e5", "5 genmove b"],
        ["1 play b D4", "2 play w E6", "3 undo", "4 play w e5", "5 play b pass"],
        ["=1 D4", "=2", "=3", "=4", "=5 pass"],
        ["1 black D4 opening", "2 black undone", "3 black pass opening"],
    ),
    "a move that is taken back": Talk(
        ["1 genmove b", "2 undo", "3 genmove b"],
        ["1 play b D4", "2 undo", "3 play b D4"],
        ["=1 D4", "=2", "=3 D4"],
        ["1 black D4 opening", "1 black undone", "1 black D4 opening"],
    ),
    "another game": Talk(
        ["1 genmove b", "2 play w E6", "3 clear_board", "4 genmove b"],
        ["1 play b D4", "2 play w E6", "3 clear_board", "4 play b D4"],
        ["=1 D4", "=2", "=3", "=4 D4"],
        ["1 black D4 opening", "1 black D4 opening"],
    ),
    "a refusal": Talk(
        ["1 genmove b", "2 name"],
        ["1 play b D4", "2 name"],
        ["?1 no", "=2"],
        ["1 black refuses the opening"],
        ["D4"],
    ),
    "a refusal of the other side's move": Talk(
        ["1 genmove b", "2 play w E5"],
        ["1 play b D4", "2 play w E5"],
        ["=1 D4", "?2 no"],
        ["1 black D4 opening", "2 black refuses the opening"],
        ["E5"],
    ),
    "a refusal that isn't of the opening": Talk(
        ["1 genmove b", "2 play w E6", "3 play w pass"],
        ["1 play b D4", "2 play w E6", "3 play w pass"],
        ["=1 D4", "?2 no", "?3 no"],
        ["1 black D4 opening"],
        ["E6", "pass"],
    ),
    "commands without numbers": Talk(
        ["genmove b", "play w E5", "genmove black"],
        ["play b D4", "play w E5", "play black pass"],
        ["= D4", "=", "= pass"],
        ["1 black D4 opening", "3 black pass opening"],
    ),
    "spaces and comments": Talk(
        ["# genmove b", "", "  007\tgenmove  b # one", "8 reg_genmove w"],
        ["# genmove b", "", "007 play b D4", "8 reg_genmove w"],
        ["=007 D4", "=8"],
        ["1 black D4 opening"],
    ),
}


def answers_to(process: Popen[str], pieces: List[List[str]]) -> List[str]:
    """Returns the answers, of one line each, where a piece waits for those to the one before."""
    assert process.stdin and process.stdout
    answers = []
    for piece in pieces:
        process.stdin.write("".join(f"{line}\n" for line in piece))
        process.stdin.flush()
        for line in piece:
            if line.partition("#")[0].strip():
                answers.append(process.stdout.readline()[:-1])
                process.stdout.readline()
    process.stdin.close()
    return answers + process.stdout.read().splitlines()


def notes_of(between: Between) -> List[str]:
    """Returns the notes without who thinks, which depends on how fast an engine starts."""
    return [line for line in between.notes() if not line.endswith(" thinks")]


@pytest.mark.parametrize("at_once", [False, True], ids=["one by one", "all at once"])
@pytest.mark.parametrize("talk", TALKS.values(), ids=TALKS)
def test_opening_in_a_conversation(talk: Talk, at_once: bool, runner: Runner) -> None:
    runner.write("plays.py", PLAYS)
    between = Between(runner, sys.executable, "plays.py", *talk.refused, opening=OPENING)
    pieces = [talk.text] if at_once else [[line] for line in talk.text]
    assert answers_to(between.start(), pieces) == talk.answers
    assert (runner.folder / "asked").read_text().splitlines() == talk.asked
    assert notes_of(between) == ["0 black started S", *talk.notes]


# what an engine writes that was asked `1 genmove b` and then ends, what twogtp gets, and the notes
STARTED, OPENED = ["0 black started S"], ["0 black started S", "1 black D4 opening"]
ENDED = ["0 black ended S: 1 play b D4: exit status 0"]


@pytest.mark.parametrize(
    "answer, passed_on, notes",
    [
        pytest.param("=1 ok\n\n", "=1 D4\n\n", OPENED, id="words"),
        pytest.param("=1 a\nb\n c\n\n", "=1 D4\n\n", OPENED, id="lines"),
        pytest.param("=1\r\n\r\n", "=1 D4\n\n", OPENED, id="other ends of lines"),
        pytest.param("\n \n  =1\x07\tA1\n\n", "\n \n=1 D4\n\n", OPENED, id="what twogtp skips"),
        pytest.param("\x01\x7f=1\n\n", "=1 D4\n\n", OPENED, id="control characters before it"),
        pytest.param("=0001\n\n", "=0001 D4\n\n", OPENED, id="zeros"),
        pytest.param("=2\n\n", "=2 D4\n\n", OPENED, id="another number"),
        pytest.param("= \n\n", "= D4\n\n", OPENED, id="no number"),
        pytest.param("=1ok\n\n", "=1 D4\n\n", OPENED, id="words next to the number"),
        pytest.param(f"=1 {'x' * 8187}\n\n", "=1 D4\n\n", OPENED, id="8192 bytes"),
        pytest.param(f"=1 {'x' * 8188}\n\n", None, STARTED, id="more than twogtp takes"),
        pytest.param("=1" + "\n x" * 3000, None, ENDED, id="more lines than twogtp takes"),
        pytest.param("=1 A1\n", None, ENDED, id="no end"),
        pytest.param(
            "?1 I play \n otherwise\n\n",
            None,
            [*STARTED, "1 black refuses the opening"],
            id="a failure",
        ),
        pytest.param("?1 no\n", None, ENDED, id="a failure without an end"),
        pytest.param(
            "hello\n\n", None, ["0 black ended S: nothing was asked: exit status 0"], id="no answer"
        ),
    ],
)
def test_answer_to_a_move_of_an_opening(
    answer: str, passed_on: str, notes: List[str], runner: Runner
) -> None:
    # a success becomes the move, with the engine's own number, and nothing else is changed
    program = "import sys; sys.stdin.readline(); sys.stdout.write(eval(sys.argv[1]))"
    between = Between(runner, sys.executable, "-c", program, ascii(answer), opening=OPENING)
    assert between.run("1 genmove b\n").output == (passed_on or answer)
    assert notes_of(between) == notes
