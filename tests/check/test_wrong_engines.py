"""Each engine of tests/engines/wrong shows its bug in a conversation, and the right one does not.

The last reply of the right engine is what the bug's `right` says, and that of the wrong engine is
not. All replies before are right, and the same by both. The opening of an ordinary game is answered
rightly by a wrong engine too, unless its bug says that it isn't.
"""
from __future__ import annotations

import re
from collections import Counter
from pathlib import Path
from typing import Callable, List, NamedTuple, Optional, Sequence, Type

import pytest

from tests.engines.wrong.bug import RESTART, Bug
from tests.engines.wrong.bugs import SUBJECTS, all_bugs, bugs_of
from tests.engines.wrong.plain import Plain

from .checking import RunEngine

BUGS = all_bugs()
FEWEST, FEWEST_OF_A_SUBJECT = 300, 7
OPENING = """\
1 boardsize 9
2 komi 6.5
3 clear_board
4 play b C3
5 play w G7
6 play b C7
7 play w G3
8 genmove b""".split(
    "\n"
)
RIGHT_AFTER_OPENING = "but C3 G7 C7 G3"
LETTERS = "ABCDEFGHJKLMNOPQRSTUVWXYZ"


class Answers(NamedTuple):
    """What an engine has answered, before the last step and to it, and how its processes ended."""

    before: List[str]
    last: str
    statuses: List[int]


Converse = Callable[[Type[Plain], Sequence[str], Sequence[str]], Answers]


@pytest.fixture
def converse(run_engine: RunEngine, tmp_path: Path) -> Converse:
    """Returns a function that has a conversation with an engine, in memory: each step is a read."""

    def answers(kind: Type[Plain], steps: Sequence[str], options: Sequence[str]) -> Answers:
        (tmp_path / "state").unlink(missing_ok=True)
        processes = [run_engine(kind, texts, options) for texts in texts_of_processes(steps)]
        *before, last = [output for process in processes for output in process.outputs]
        return Answers(before, last, [process.status for process in processes])

    return answers


def texts_of_processes(steps: Sequence[str]) -> List[List[str]]:
    """Returns what each process reads."""
    found: List[List[str]] = [[]]
    for step in steps:
        if step == RESTART:
            found.append([])
        else:
            found[-1].append(step.removeprefix("! ") + "\n")
    return found


# ---- what is right


class Reply(NamedTuple):
    """A reply: = or ?, the id, and the text."""

    mark: str
    id: str
    text: str


def replies_of(output: str) -> Optional[List[Reply]]:
    """Returns the replies of an output, or None where it isn't a row of whole replies."""
    *parts, rest = output.split("\n\n")
    found = [re.fullmatch("([=?])([0-9]*)(?: ([^ \n].*))?", part, re.DOTALL) for part in parts]
    replies = [Reply(*match.groups("")) for match in found if match]
    return replies if rest == "" and len(replies) == len(parts) else None


def id_of(line: str) -> str:
    """Returns the id of a line, as its reply has it."""
    found = re.match("[ \t]*([0-9]*)", line)
    assert found
    return found[1]


def is_right(right: str, steps: Sequence[str], output: str) -> bool:
    """Tells whether an output is right for the last step, for whose last line `right` is wanted."""
    if right == "nothing":
        return output == ""
    replies = replies_of(output)
    if replies is None or [reply.id for reply in replies] != [*map(id_of, steps[-1].split("\n"))]:
        return False
    *others, last = replies
    return all(reply.mark == "=" for reply in others) and is_wanted(right, steps, last)


def is_wanted(right: str, steps: Sequence[str], reply: Reply) -> bool:
    """Tells whether a reply is one that is wanted, by the words of tests/engines/wrong/bug.py."""
    kind, _, wanted = right.partition(" ")
    if "?" in (kind, reply.mark):
        return kind == reply.mark
    if kind == "=":
        return reply.text == wanted
    if kind == "points":
        return sorted(reply.text.split(" ")) == sorted(wanted.split(" "))
    if kind == "moves":
        return reply.text in [*wanted.split(" "), "resign"]
    assert kind == "but"
    if reply.text in ("pass", "resign"):
        return True
    return is_on_board(reply.text, steps) and reply.text not in wanted.split(" ")


def is_on_board(text: str, steps: Sequence[str]) -> bool:
    """Tells whether this is a vertex of the board that the last `boardsize` has made."""
    size = int(re.findall("boardsize ([0-9]+)", "\n".join(steps))[-1])
    found = re.fullmatch("([A-HJ-Z])([1-9][0-9]?)", text)
    return found is not None and LETTERS.index(found[1]) < size and int(found[2]) <= size


# ---- the tests


@pytest.mark.parametrize("name", BUGS)
def test_conversation_shows_the_bug(name: str, converse: Converse) -> None:
    bug = BUGS[name]
    right = converse(Plain, bug.shows, bug.options)
    wrong = converse(bug, bug.shows, bug.options)
    assert wrong.before == right.before
    for step, answer in zip((step for step in bug.shows if step != RESTART), right.before):
        assert answer.startswith("?" if step.startswith("! ") else "=")
    assert right.statuses == [0, *wrong.statuses[:-1]] == [0] * len(right.statuses)
    assert is_right(bug.right, bug.shows, right.last), right.last
    assert not is_right(bug.right, bug.shows, wrong.last), wrong.last
    assert bug.waits == owes_a_reply(bug, wrong)


def owes_a_reply(bug: Type[Bug], wrong: Answers) -> bool:
    """Tells whether an engine that was not asked to quit has read on without the end of a reply."""
    owes = wrong.last.count("\n\n") <= bug.shows[-1].count("\n") and bug.right != "nothing"
    return owes and wrong.statuses[-1] == 0 and "quit" not in bug.shows[-1]


@pytest.mark.parametrize("name", BUGS)
def test_opening_of_an_ordinary_game(name: str, converse: Converse) -> None:
    bug = BUGS[name]
    # where the bug shows there, all lines are written at once
    steps = OPENING if bug.plain else ["\n".join(OPENING)]
    answers = converse(bug, steps, bug.options)
    succeeded = answers.before == [f"={number}\n\n" for number in range(1, len(steps))]
    assert bug.plain == (succeeded and is_right(RIGHT_AFTER_OPENING, steps, answers.last))


def test_there_are_enough_bugs_of_each_subject() -> None:
    counts = Counter({subject: len(bugs_of(subject)) for subject in SUBJECTS})
    assert sum(counts.values()) == len(BUGS) >= FEWEST  # no two have one name
    assert min(counts.values()) >= FEWEST_OF_A_SUBJECT
