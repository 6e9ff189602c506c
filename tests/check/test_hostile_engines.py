"""Engines that misbehave by tests/references/controller/faulty.py, or that are gone.

What each check has to come to was worked out by hand. An engine is asked `name`, `version`, three
times `known_command`, `boardsize 5`, which finds the size of scenes, `boardsize 5`, `komi 6.5`,
`clear_board`, and then, in the lesson `start`, `play b E5`, `undo` and `play w F1`, which is off
that board. In the lesson `genmoves` it is asked `genmove b` after `clear_board`, and then
`genmove w`; with `--size` no size of scenes is looked for. With `--singly` each is asked once the
one before is answered.

In the lesson `start` a check is over where something was found, by `--restarts 0`. In the other
lessons the engine is started again then, the next part begins, and a check goes to the end of
`--restarts 3`, with four starts. There are three if an engine gives no right answer, or is lost
three times in a lesson.
"""
from __future__ import annotations

from pathlib import Path
from subprocess import PIPE
from typing import NamedTuple, Optional, Sequence

import pytest

from tests.references.controller.engines import Planned
from tests.shared.processes import TOP, wait_until

from .checking import Checker

START = ("--only", "start", "--restarts", "0", "--singly")
KOMI = ("--only", "komi", "--restarts", "3", "--singly")
# what is found is shown as it was asked
OWN = ("--only", "genmoves", "--size", "5", "--restarts", "3", "--singly", "--trials", "0")
NO_STATUS = "not a GTP reply (it begins with neither = nor ?)"
NO_ID = "a reply without the id of the command"
NO_END = "no end of a reply in 8192 bytes"
REFUSED = "it was refused"
TAKEN = "it was accepted"
ENDED = "its output ended, "
WITHIN = "its output ended within a reply, "
NO_VERTEX = "neither a vertex nor resign"
ILLEGAL = "an illegal move"
BLACK, WHITE = "9 genmove b", "10 genmove w"
# the commands of each start, on 5x5, 9x9, 1x1 and 2x2; a lesson is over after three losses
NOT_LOST = [9, 9, 9, 9]
LOST = NOT_LOST[:3]
NO = r"?<id>_no\n\n"


class Hostile(NamedTuple):
    """An engine that misbehaves, the options of its check, and what is found.

    By itself the engine passes at each move, and its replies to all else have no text.
    """

    name: str
    plan: str
    style: str  # of all replies
    options: Sequence[str]
    first: Optional[str]  # the command that is complained of first
    fault: str
    starts: int
    commands: int
    before: str = ""  # the command in front of the engine's
    errors: str = ""  # what is written on standard error at each start

    def command(self, folder: Path) -> str:
        """Returns the command of the engine, which notes its starts in the folder."""
        words = Planned(1, 1, self.style, self.plan).command(str(folder / "started"))
        return self.before + " ".join(words)


def never_right(name: str, fault: str, plan: str = "-", style: str = "<reply>") -> Hostile:
    """Returns an engine whose first answer is wrong each time, so there are three starts."""
    return Hostile(name, plan, style, KOMI, "1 name", fault, 3, 3)


def wrong_at_version(name: str, fault: str, plan: str = "-", style: str = "<reply>") -> Hostile:
    """Returns an engine whose answer to `name` is right, and the next one has the id of that."""
    return Hostile(name, plan, style, KOMI, "2 version", fault, 4, 8)


def at_start(name: str, plan: str, first: str, fault: str) -> Hostile:
    """Returns an engine whose answer to this command of the lesson `start` is wrong."""
    number = int(first.split()[0])
    return Hostile(name, plan, "<reply>", START, first, fault, 1, number)


def polite(name: str, plan: str) -> Hostile:
    """Returns an engine that answers each command by a success, and ends as its plan says.

    So it also accepts the point off the board.
    """
    return at_start(name, plan, "12 play w F1", TAKEN)


def at_move(name: str, plan: str, first: str, fault: str, commands: Sequence[int]) -> Hostile:
    """Returns an engine that misbehaves at its move, with so many commands at each start."""
    return Hostile(name, plan, "<reply>", OWN, first, fault, len(commands), sum(commands))


def silent(name: str, before: str, errors: str = "") -> Hostile:
    """Returns an engine that doesn't answer, and is ended by the command in front of it."""
    fault = ENDED + "exit status 124"
    silence = ("*/c1-999//on", "<reply>", KOMI[:-1])
    return Hostile(name, *silence, "1 name", fault, 3, 15, before, errors)


ENGINES = {
    engine.name: engine
    for engine in (
        never_right("exits", ENDED + "exit status 1", "*/0//ends:1"),
        never_right("reads_and_exits", ENDED + "exit status 0", "*/c1//ends"),
        never_right("closes_its_output", ENDED + "but it ran on", "*/0//closes"),
        never_right("greets", NO_STATUS, r"*/0/Welcome_to_Go\n/on"),
        never_right("junk", NO_STATUS, style=r"hello\n"),
        never_right("echoes", NO_STATUS, style=r"<id>_name\n"),
        never_right("wrong_id", NO_ID, style=r"=<id+1>\n\n"),
        never_right("no_id", NO_ID, style=r"=\n\n"),
        never_right("newlines_without_end", NO_END, r"*/0/<1000*\n>/floods"),
        never_right("a_reply_without_end", NO_END, "*/0/=1_/floods"),
        never_right("half_a_reply", WITHIN + "exit status 0", "*/c1/<reply:2>/ends"),
        never_right("all_but_the_last_newline", WITHIN + "exit status 0", "*/c1/<reply:3>/ends"),
        wrong_at_version("old_id", NO_ID, style=r"=1\n\n"),
        wrong_at_version("twice", NO_ID, style=r"=<id>\n\n=<id>\n\n"),
        wrong_at_version("replies_without_end", NO_ID, r"*/0/=1\n\n/floods"),
        polite("quits", "-"),
        polite("quit_sleeps", "*/q/<reply>/shuts"),
        polite("quit_stops", "*/q/<reply>/ends:-19"),
        polite("quit_closes", "*/q//closes"),
        polite("quit_junk", r"*/q/hello\n/on"),
        polite("quit_newlines", r"*/q/<1000*\n>/floods"),
        polite("quit_late", "*/q//late"),
        polite("quit_never", "*/q//shuts"),
        polite("odd", r"*/c1-999/\r\n_\n=00<id>_some\r\nwords\r\n\r\n/bytes"),
        at_start("play_refused", f"*/p1-999/{NO}/on", "10 play b E5", REFUSED),
        at_start("play_half", "*/p1/<reply:2>/ends", "10 play b E5", WITHIN + "exit status 0"),
        at_start("undo_refused", f"*/u1-99/{NO}/on", "11 undo", REFUSED),
        at_start("undo_exits", "*/u1//ends", "11 undo", ENDED + "exit status 0"),
        at_move("move_exits", "*/g1//ends", BLACK, ENDED + "exit status 0", LOST),
        at_move("move_half", "*/g1/<reply:5>/ends", BLACK, WITHIN + "exit status 0", LOST),
        at_move("move_cut", r"*/g1/=<id>_pass\n/ends", BLACK, WITHIN + "exit status 0", LOST),
        at_move("move_sleeps_closed", "*/g1//closes", BLACK, ENDED + "but it ran on", LOST),
        at_move("move_twice", "*/g1-99/<reply><reply>/on", WHITE, NO_ID, [10, 10, 10, 10]),
        at_move("no_move", f"*/g1-99/{NO}/on", BLACK, "no move: the genmove failed", NOT_LOST),
        at_move("no_vertex", r"*/g1-99/=<id>_I5\n\n/on", BLACK, NO_VERTEX, NOT_LOST),
        at_move("two_vertices", r"*/g1-99/=<id>_A1_B2\n\n/on", BLACK, NO_VERTEX, NOT_LOST),
        at_move("empty_move", r"*/g1-99/=<id>\n\n/on", BLACK, NO_VERTEX, NOT_LOST),
        at_move("off_the_board", r"*/g1-99/=<id>_T19\n\n/on", BLACK, ILLEGAL, NOT_LOST),
        # on 1x1 the first A1 is suicide already; elsewhere the second one is on a stone
        at_move("always_A1", r"*/g1-99/=<id>_A1\n\n/on", WHITE, ILLEGAL, [10, 10, 9, 10]),
        # no move is played, so nothing can be undone: after four genmoves `undo` has to fail
        at_move("resigns", r"*/g1-99/=<id>_RESIGN\n\n/on", "13 undo", TAKEN, [13, 13, 13, 13]),
        silent("silent, under timeout", "timeout 1 "),
        silent(
            "silent, under patience",
            f"{TOP}/tournament/patience 1 ",
            "patience: no answer in time to '1 name'\n",
        ),
        # It refuses the name, and in each of 19 parts each size from 5 on, and one more, which an
        # engine may. So no pass is earned.
        Hostile("refuses", "-", NO, ("--only", "komi"), None, "", 1, 5 + 19 * 22),
    )
}
SILENT = Hostile("silent", "*/c1-999//on", "<reply>", START, None, "", 1, 1)


@pytest.mark.parametrize("engine", ENGINES.values(), ids=ENGINES)
def test_hostile_engine(engine: Hostile, checker: Checker, tmp_path: Path) -> None:
    check = checker.check(engine.command(tmp_path), *engine.options)
    report = check.report
    assert check.status == (1 if engine.first else 4)
    assert [complaint.command for complaint in report.complaints[:1]] == [
        *filter(None, [engine.first])
    ]
    # from the second start on the board is another one, and so may be the point
    faults = {(complaint.name, complaint.fault) for complaint in report.complaints}
    assert faults == ({(engine.first.split()[1], engine.fault)} if engine.first else set())
    assert report.total == (engine.starts if engine.first else 0)
    assert (report.starts, report.commands) == (engine.starts, engine.commands)
    assert check.errors == engine.starts * engine.errors
    if not engine.before:  # which may end it before it notes its start
        assert (tmp_path / "started").read_text().count("start\n") == engine.starts


def test_engine_that_refuses_everything(checker: Checker, tmp_path: Path) -> None:
    # It may refuse each size, so no move is asked, but not `list_commands`, which is asked in the
    # last part of the lesson `start`, nor `protocol_version`, which comes in the first of `errors`
    # in place of the size that is asked for again, and three more commands are sent ahead with it.
    # Each of these two is followed by a start; each lesson has one of its own, and so has the part
    # in pieces. The commands are five of each start, one for each part of a lesson, and in those
    # that look for the size of scenes 21 more.
    parts = {
        **{"start": 4, "placed": 4, "errors": 4, "sizes": 25, "ko": 4 * 20},
        **{"captures": 10 * 20, "suicide": 5 * 20, "joining": 4 * 20, "handicaps": 25 * 12},
        **{"komi": 19, "drawn": 11, "record": 3, "genmoves": 9, "games": 5, "restarts": 5},
    }
    one_size = ("sizes", "handicaps")
    starts = 3 + len(parts)
    commands = (
        starts * 5
        + 3
        + sum(count if lesson in one_size else 22 * count for lesson, count in parts.items())
    )
    check = checker.check(ENGINES["refuses"].command(tmp_path), "--trials", "0")
    assert (check.status, check.errors) == (1, "")
    complaints = [(complaint.command, complaint.fault) for complaint in check.report.complaints]
    assert complaints == [("50 list_commands", REFUSED), ("27 protocol_version", REFUSED)]
    unasked = "no play and no genmove was answered rightly on any board of it"
    assert list(check.report.notes) == [
        *(f"{lesson}: {unasked}" for lesson in parts),
        f"it refuses the sizes {' '.join(map(str, [*range(5, 26), *range(1, 5)]))}",
    ]
    assert (check.report.commands, check.report.starts) == (commands, starts)


def test_silent_engine_is_waited_for(checker: Checker, tmp_path: Path) -> None:
    started = tmp_path / "started"
    engine = SILENT.command(tmp_path)
    with checker.start(engine, *SILENT.options, stdout=PIPE, stderr=PIPE) as process:
        assert wait_until(lambda: started.exists() and "1 name" in started.read_text())
        assert process.poll() is None
        process.kill()
        assert process.communicate() == ("", "")


# ---- programs that are gone


def test_program_that_is_gone_after_its_first_start(checker: Checker, tmp_path: Path) -> None:
    once = tmp_path / "once"
    once.write_text('#!/bin/sh\nrm "$0"\nexit 7\n')
    once.chmod(0o755)
    check = checker.check(str(once), "--only", "komi", "--singly")
    wanted = f"""\
check: an engine without a name, version unknown, seed 1, simple ko
# 1 komi: "1 name": its output ended, exit status 7
1 name
# it wrote: ""
# right: an engine answers each command, and reads on until quit

check: not asked, as the options say: start placed errors sizes ko captures suicide joining \
handicaps drawn record genmoves games restarts
check: the engine was not started: no such file: "{str(once)[:80]}"
check: not asked, or not to their end, for that: komi
check: 1 command, 1 start, 1 complaint
"""
    assert check == (1, wanted, "")


def test_right_program_that_is_gone_earns_no_pass(checker: Checker, tmp_path: Path) -> None:
    once = tmp_path / "once"
    once.write_text('#!/bin/sh\nrm "$0"\nexec gtp_engine\n')
    once.chmod(0o755)
    check = checker.check(str(once), "--only", "start")
    assert (check.status, check.errors) == (4, "")
    assert check.report.notes[-2:] == (
        f'the engine was not started: no such file: "{str(once)[:80]}"',
        "not asked, or not to their end, for that: start",
    )
    assert (check.report.starts, check.report.total) == (1, 0)
