"""What a complaint shows: short conversations, the last game, and answers that run on."""
from __future__ import annotations

import re
from pathlib import Path
from typing import Dict, List, Sequence

import pytest

from tests.engines.wrong.plain import Plain

from .checking import PYTHON, WRONG, Checker, RunEngine, only
from .reports import Choice, Complaint

MOST_SHOWN = 40  # lines of a conversation, in place of hundreds


def right_answers(run_engine: RunEngine, lines: Sequence[str]) -> Dict[str, str]:
    """Returns what the right engine answers to each line. A success has no mark and no id."""
    output = run_engine(Plain, ["".join(f"{line}\n" for line in lines)], []).outputs[0]
    answers = [re.sub(r"^=\d+ ?", "", answer) for answer in output.split("\n\n")]
    return dict(zip(lines, answers))


def only_complaint(checker: Checker, engine: str, *options: str) -> Complaint:
    """Returns the one complaint about an engine."""
    check = checker.check(engine, "--restarts", "0", *options)
    assert (check.status, check.errors) == (1, "")
    (complaint,) = check.report.complaints
    return complaint


# ---- which complaints are shown

POSITIONAL = "gtp_engine --ko positional"  # under simple ko it refuses legal moves in both lessons


def test_three_alike_over_all_lessons(checker: Checker) -> None:
    options = ["--trials", "0", *only("ko", "record")]
    check = checker.check(POSITIONAL, *options)
    assert [found.lesson for found in check.report.complaints] == ["ko", "ko", "ko"]
    assert {found.fault for found in check.report.complaints} == {"it was refused"}
    counted = [note for note in check.report.notes if note.startswith("record: more complaints")]
    assert len(counted) == 1
    alone = checker.check(POSITIONAL, "--trials", "0", *only("record"))
    assert {found.lesson for found in alone.report.complaints} == {"record"}


def test_stop_at_first(checker: Checker) -> None:
    options = ["--trials", "0", *only("ko", "record")]
    check = checker.check(POSITIONAL, "--stop-at-first", "--restarts", "9", *options)
    assert (check.status, check.report.starts, check.report.total) == (1, 1, 1)
    assert checker.check(POSITIONAL, *options).report.total > 1
    assert checker.check("gtp_engine", "--stop-at-first", *options).status == 0


# ---- a mistake that no shorter conversation shows


def last_game(lines: Sequence[str]) -> List[str]:
    """Returns the last game of a conversation, after the lines that set its size and komi."""
    start = max(at for at, line in enumerate(lines) if line.endswith(" clear_board"))
    settings = {
        max(at for at, line in enumerate(lines[:start]) if f" {name} " in line)
        for name in ("boardsize", "komi")
    }
    return [*(lines[at] for at in sorted(settings)), *lines[start:]]


@pytest.mark.parametrize(
    "lesson, first, is_whole",
    [("ko", 40, True), ("ko", 41, False), ("games", 300, False), ("genmoves", 90, False)],
)
def test_late_mistake(
    lesson: str, first: int, is_whole: bool, checker: Checker, run_engine: RunEngine
) -> None:
    shown, whole = (
        only_complaint(checker, f"{WRONG}/late {first}", "--only", lesson, "--trials", trials)
        for trials in ("3", "0")
    )
    assert (whole.left_out, len(whole.lines)) == (0, first)
    # up to forty commands are shown whole, and else the last game, with the moves that were chosen
    wanted = list(whole.lines) if is_whole else last_game(whole.lines)
    assert [*shown.lines] == wanted
    assert shown.left_out == len(whole.lines) - len(wanted)
    answers = right_answers(run_engine, whole.lines)
    for block in (whole, shown):
        asked = [line for line in block.lines[:-1] if " genmove " in line]
        assert [*block.chosen] == [Choice(line, answers[line]) for line in asked]
    assert shown[2:4] == whole[2:4] and shown.wrote == whole.wrote


@pytest.mark.parametrize(
    "first, least, most",
    [
        pytest.param(12, 1, 1, id="none of 12 commands"),
        pytest.param(13, 2, 1001, id="of 13 commands"),
        # At most 149 of 150 commands are sent, and each trial leaves out one more: 134 have 19,852
        # commands at least, of 20,000.
        pytest.param(150, 135, 1001, id="of 150 commands, up to 20,000"),
    ],
)
def test_shorter_conversations_are_tried(
    first: int, least: int, most: int, checker: Checker, tmp_path: Path
) -> None:
    # as tests/engines/wrong/late, which Python starts too slowly for this
    late = tmp_path / "late"
    late.write_text(f"#!/bin/sh\ngtp_engine | sed -u 's/^\\([=?]\\){first}\\b/\\1/'\n")
    late.chmod(0o755)
    check = checker.check(str(late), "--only", "ko", "--restarts", "0", "--trials", "1000")
    assert check.report.total == 1
    assert least <= check.report.starts <= most


# ---- lines and answers that are cut otherwise


def test_line_in_two_pieces_is_noticed(checker: Checker) -> None:
    check = checker.check(f"{WRONG}/pieces", "--only", "start", "--trials", "0")
    assert (check.status, check.errors) == (1, "")
    (complaint,) = check.report.complaints
    assert (complaint.lesson, complaint.fault) == ("start", "a reply without the id of the command")
    assert complaint.in_pieces


def test_only_lines_in_two_pieces_notice_it(checker: Checker) -> None:
    check = checker.check(f"{WRONG}/pieces", *only("komi", "games", "restarts"))
    assert (check.status, check.errors) == (0, "")


@pytest.mark.parametrize("lesson", ["start", "captures", "drawn"])
@pytest.mark.parametrize("kind", ["failures", "refusal"])
def test_answer_with_one_newline(
    kind: str, lesson: str, checker: Checker, run_engine: RunEngine
) -> None:
    engine = f"{WRONG}/unended {kind}"
    complaint = only_complaint(checker, engine, "--only", lesson, "--trials", "30")
    assert complaint.ran_on
    assert not complaint.left_out and len(complaint.lines) <= MOST_SHOWN
    lines = (*complaint.lines, *complaint.ahead)
    text = "".join(f"{line}\n" for line in lines)
    wrong = checker.run(engine, text)
    assert "\n\n".join(wrong.split("\n\n")[len(complaint.lines) - 1 :]).startswith(complaint.wrote)
    assert run_engine(Plain, [text], []).outputs[0].count("\n\n") == len(lines)


# ---- the same bytes


def without_count(output: str) -> str:
    """Returns an output without the number of commands, some of which may be on their way."""
    return re.sub(r"^check: \d+ commands?,", "check:", output, flags=re.MULTILINE)


@pytest.mark.parametrize(
    "engine, lesson",
    [
        pytest.param("gtp_engine --ko positional", "ko", id="another rule of ko"),
        pytest.param(f"{WRONG}/engine --bug sign_is_lost", "komi", id="a wrong engine"),
    ],
)
def test_output_is_the_same_except_for_the_number_of_commands(
    engine: str, lesson: str, checker: Checker
) -> None:
    options = ["--seed", "5", "--restarts", "1", "--trials", "6", "--only", lesson]
    checks = [checker.check(engine, *options) for _ in range(2)]
    assert len({without_count(check.output) for check in checks}) == 1


# ---- causes that are only possible, and what may be tried


def test_a_colour_in_full_is_named_as_a_possible_cause(checker: Checker) -> None:
    engine = f"{WRONG}/engine --bug colours_are_letters"
    complaint = only_complaint(checker, engine, "--only", "start")
    assert complaint.in_full
    # the same with the letter isn't asked, so what is said to be right is that of any play
    assert complaint.right.startswith("legal: ")


@pytest.mark.parametrize(
    "engine, lesson, hint",
    [
        (
            f"{PYTHON} tests/engines/right/free allows_suicide",
            "suicide",
            "if its rules allow suicide: try --suicide unasked",
        ),
        (f"{WRONG}/beyond score_is_turned", "komi", "if it estimates scores: try --score unasked"),
        (
            f"{WRONG}/beyond undo_fails_at_once",
            "start",
            "if it never can: it has to answer known_command undo with false",
        ),
        (f"{WRONG}/engine --bug black_begins", "start", ""),
    ],
)
def test_what_may_be_tried_is_said(engine: str, lesson: str, hint: str, checker: Checker) -> None:
    assert only_complaint(checker, engine, "--only", lesson).hint == hint
