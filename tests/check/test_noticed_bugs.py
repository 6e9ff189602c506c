"""Wrong engines are noticed by the lessons about their bugs, and what is shown of them is real.

The conversation of a complaint is pasted into the wrong engine, which writes the same again, and
into the right one, which answers rightly. noticed_bugs.py says which lessons notice each bug, and
which bugs nothing notices.

Some bugs of each subject are tried. `--count 100` tries all, and asks the whole course where
nothing may be noticed, in some ten minutes.
"""
from __future__ import annotations

import re
from typing import List, Sequence, Tuple, Type

import pytest

from tests.engines.wrong.bug import Bug
from tests.engines.wrong.bugs import SUBJECTS, all_bugs, bugs_of
from tests.engines.wrong.plain import Plain

from .checking import WRONG, Checker, RunEngine, only
from .noticed_bugs import NOT_PASTED, NOTICED, UNNOTICED, WAITING, lessons_of
from .reports import Complaint

BUGS = all_bugs()
OF_A_SUBJECT = 8  # bugs of each subject, at most
QUICK_LESSONS = ("start", "komi", "games")


def pytest_generate_tests(metafunc: pytest.Metafunc) -> None:
    count = metafunc.config.getoption("--count")
    if "noticed" in metafunc.fixturenames:
        metafunc.parametrize("noticed", some_noticed(count or OF_A_SUBJECT))
    if "unnoticed" in metafunc.fixturenames:
        lessons = () if count else QUICK_LESSONS
        names = list(UNNOTICED)[:: 1 if count else 3]
        metafunc.parametrize("unnoticed, lessons", [(name, lessons) for name in names], ids=names)


def some_noticed(most: int) -> List[str]:
    """Returns bugs that are noticed, so many of each subject at most, from all over its module."""
    found = []
    for subject in SUBJECTS:
        names = [bug.name for bug in bugs_of(subject) if bug.name not in UNNOTICED]
        found += names[:: -(-len(names) // most)]
    return found


def engine_of(bug: Type[Bug]) -> str:
    """Returns the command of an engine with a bug."""
    limit = "timeout 1 " if bug.name in WAITING else ""
    return " ".join([f"{limit}{WRONG}/engine", *bug.options, "--bug", bug.name])


def rule_of(bug: Type[Bug]) -> Sequence[str]:
    """Returns the rule of ko of a bug's engine, as an option of the check."""
    return ["--ko", "positional"] if "positional" in bug.options else []


# ---- conversations that are pasted


def pasted(
    run_engine: RunEngine, kind: Type[Plain], options: Sequence[str], lines: Sequence[str]
) -> Tuple[List[str], int]:
    """Returns the answers to lines that are pasted into an engine, the last one with all that
    follows, and how the engine ended."""
    ended = run_engine(kind, ["".join(f"{line}\n" for line in lines)], options)
    return ended.outputs[0].split("\n\n", len(lines) - 1), ended.status


def repeats_the_colour(lines: Sequence[str], answers: Sequence[str]) -> bool:
    """Tells whether the last line is a play of the colour that moved last, by a right engine."""
    colours: List[str] = []
    for line, answer in zip(lines[:-1], answers):
        name, *arguments = line.split()[1:]
        if answer.startswith("?"):
            continue
        if name in ("boardsize", "clear_board"):
            colours = []
        elif name == "play":
            colours.append(arguments[0][0])
        elif name == "undo":
            colours.pop()
    return colours[-1:] == [lines[-1].split()[2][0]]


def check_is_real(run_engine: RunEngine, bug: Type[Bug], complaint: Complaint) -> None:
    """Fails unless the conversation is answered so again, and rightly by the right engine."""
    lines = complaint.lines
    answers, status = pasted(run_engine, bug, bug.options, lines)
    wrote = answers[-1]
    assert len(answers) == len(lines) and wrote.startswith(complaint.wrote)
    if cut := re.fullmatch("its output ended(?: within a reply)?, (.*)", complaint.fault):
        assert (wrote, f"exit status {status}") == (complaint.wrote, cut[1])
    if any("genmove" in line for line in lines[:-1]):
        return  # a right engine may choose another move
    answers, _ = pasted(run_engine, Plain, bug.options, lines)
    is_refused_play = complaint.fault == "it was refused" and complaint.name == "play"
    assert complaint.in_a_row == (is_refused_play and repeats_the_colour(lines, answers))
    # it isn't said which of two scores is the wrong one
    if complaint.fault != "a score that doesn't differ from its others as the komis do":
        assert answers[-1].endswith("\n\n") and answers[-1] != wrote


# ---- the tests


def test_noticed_bug(noticed: str, checker: Checker, run_engine: RunEngine) -> None:
    bug = BUGS[noticed]
    options = ["--trials", "0", "--restarts", "1", *rule_of(bug)]
    check = checker.check(engine_of(bug), *options, *only(*lessons_of(noticed, bug.subject)))
    assert check.status == 1 and check.report.complaints
    for complaint in check.report.complaints:
        if noticed not in NOT_PASTED:
            check_is_real(run_engine, bug, complaint)


@pytest.mark.parametrize(
    "name", ["no_ko_after_a_handicap", "ko_after_a_chain", "seven_stones_lack_the_middle"]
)
def test_lesson_alone_shows_the_same(name: str, checker: Checker) -> None:
    # whatever was asked before it, each lesson begins with a new start
    bug = BUGS[name]
    (lesson,) = lessons_of(name, bug.subject)
    whole, alone = (
        checker.check(engine_of(bug), "--restarts", "0", *options).report.complaints
        for options in ((), only(lesson))
    )
    assert whole == alone and [complaint.lesson for complaint in alone] == [lesson]


def first_pasted(subject: str) -> Type[Bug]:
    """Returns the first bug of a subject whose conversation can be pasted."""
    return next(bug for bug in bugs_of(subject) if bug.name not in {*UNNOTICED, *NOT_PASTED})


@pytest.mark.parametrize("subject", SUBJECTS)
def test_shorter_conversation(subject: str, checker: Checker, run_engine: RunEngine) -> None:
    bug = first_pasted(subject)
    options = ["--trials", "12", "--restarts", "0", *rule_of(bug)]
    check = checker.check(engine_of(bug), *options, *only(*lessons_of(bug.name, subject)))
    (complaint,) = check.report.complaints
    assert not complaint.left_out
    check_is_real(run_engine, bug, complaint)


def test_unnoticed_bug(unnoticed: str, lessons: Sequence[str], checker: Checker) -> None:
    bug = BUGS[unnoticed]
    check = checker.check(engine_of(bug), *rule_of(bug), *only(*lessons))
    assert (check.status, check.report.total) == (0, 0), check.output


def test_table_names_bugs_once() -> None:
    assert {*NOTICED, *UNNOTICED, *WAITING, *NOT_PASTED} <= {*BUGS}
    assert not {*UNNOTICED} & {*NOTICED}
