"""Matches worked out by hand: twogtp and the reference of the controller both play them so.

They are the rows of tests/references/controller/worked, which says where they come from.
"""
from __future__ import annotations

import time

import pytest

from tests.references.controller import matches, worked
from tests.references.controller.controller import MOST_UNANSWERED
from tests.references.controller.matches import PATIENT, TIMINGS, Undetermined
from tests.references.controller.worked import Row

from .playing import Player, command_line, commands, has_lines

PATIENCE = 1  # seconds in which nothing comes of a match that waits

ROWS = worked.rows()
ENDING = [(name, row) for name, row in ROWS if row.status is not None]
WAITING = [(name, row) for name, row in ROWS if row.status is None]


def each_of(rows: list[tuple[str, Row]]) -> pytest.MarkDecorator:
    """Returns the mark that runs a test with each of these rows."""
    return pytest.mark.parametrize("row", [row for _, row in rows], ids=[name for name, _ in rows])


@each_of(ENDING)
def test_twogtp_plays_the_match(player: Player, row: Row) -> None:
    print(command_line(row.match))
    result = player.play(row.match)
    assert (result.status, result.output.decode()) == (row.status, row.output)
    assert has_lines(result.errors, row.errors), (result.errors.decode(), row.errors)
    assert commands(result.logs, row.sent) == row.sent
    assert result.logs == matches.play(row.match, PATIENT).logs


@each_of(WAITING)
def test_twogtp_waits_for_a_silent_engine(player: Player, row: Row) -> None:
    print(command_line(row.match))
    output, errors = player.folder / "output", player.folder / "errors"
    with open(output, "w") as stdout, open(errors, "w") as stderr:
        with player.start(row.match, stdout=stdout, stderr=stderr) as process:
            while commands(player.logs(), row.sent) != row.sent:
                assert process.poll() is None
                time.sleep(0.01)
            time.sleep(PATIENCE)
            assert process.poll() is None
            assert commands(player.logs(), row.sent) == row.sent
    assert output.read_text() == row.output
    assert has_lines(errors.read_bytes(), row.errors)


@each_of(ENDING)
def test_reference_plays_the_match(row: Row) -> None:
    for timing in TIMINGS:
        result = matches.play(row.match, timing).in_this_timing()
        assert (result.status, result.output.decode()) == (row.status, row.output), timing
        if timing.most == MOST_UNANSWERED:  # else fewer are owed than are reported
            assert has_lines(result.errors, row.errors), timing
    reported = matches.play(row.match, PATIENT).errors
    texts = [{text.decode() for text in texts} for texts in reported]
    assert texts == [set(texts) for texts in row.errors]


@each_of(WAITING)
def test_reference_waits_for_a_silent_engine(row: Row) -> None:
    for timing in TIMINGS:
        with pytest.raises(Undetermined):
            matches.play(row.match, timing)
