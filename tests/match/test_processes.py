"""What twogtp does with its engines' processes and with its own streams."""
from __future__ import annotations

import fcntl
import os
import time
from contextlib import suppress
from subprocess import DEVNULL, PIPE
from typing import Any, Iterator, NamedTuple, TextIO

import pytest

from tests.references.controller.engines import Engine, Other
from tests.references.controller.matches import Match
from tests.references.controller.worked.rows import FIRST, PASSED, book, match, passing, refusing
from tests.shared.processes import TIMEOUT, is_alive, wait_until

from .playing import Player

F_SETPIPE_SZ = 1031  # fcntl has it from Python 3.10
GRACE = 0.2  # seconds in which an engine whose output has ended may end by itself
LINE = f"game 1: {PASSED}\n"


def seconds_of(player: Player, engine: Engine, starts: int) -> float:
    """Returns how long a match takes in which Black, which is this engine, goes down so often."""
    begin = time.monotonic()
    result = player.play(match(engine, FIRST, restarts=starts - 1))
    seconds = time.monotonic() - begin
    assert result.output == b"game 1: abandoned black moves 0 restarts %d 0\n" % (starts - 1)
    return seconds


def test_engine_that_writes_no_reply_is_killed_at_once(player: Player) -> None:
    # the first attempt is enough, unless something else keeps the machine busy
    starts = 11
    assert wait_until(lambda: seconds_of(player, Other("cat"), starts) < starts * GRACE)


def test_engine_that_closes_its_output_may_end_by_itself(player: Player) -> None:
    starts = 6
    assert seconds_of(player, passing("*/0//closes"), starts) >= starts * GRACE


def test_engines_end_with_a_twogtp_that_is_killed(player: Player) -> None:
    waiting = match(passing("*/c1-9//refuses"), passing())
    with player.start(waiting, stdin=DEVNULL, stdout=DEVNULL) as process:
        for engine in player.log_files().values():
            assert wait_until(lambda: engine.read_bytes().startswith(b"start\n"))
        process.kill()
        process.wait()
        assert wait_until(lambda: not is_alive(process.pid))


# ---- outputs that can't be written


class Ending(NamedTuple):
    """How a match ends."""

    errors: str
    output: str
    status: int


def ending(player: Player, played: Match, **streams: Any) -> Ending:
    """Returns how a match with these streams ends."""
    streams = {"stdout": PIPE, "stderr": PIPE, "encoding": "utf-8", **streams}
    with player.start(played, stdin=DEVNULL, **streams) as process:
        output, errors = process.communicate(timeout=TIMEOUT)
    return Ending(errors, output, process.returncode)


@pytest.fixture
def full() -> Iterator[TextIO]:
    """Returns a file that takes nothing."""
    with open("/dev/full", "w") as file:
        yield file


@pytest.fixture
def unread_pipe() -> Iterator[TextIO]:
    """Returns a pipe that nobody reads."""
    reader, writer = os.pipe()
    os.close(reader)
    with open(writer, "w") as file:
        yield file


@pytest.mark.parametrize("output", ["full", "unread_pipe"])
def test_output_that_cannot_be_written_is_status_3(
    request: pytest.FixtureRequest, player: Player, output: str
) -> None:
    played = match(book(""), book(""), size=1)
    result = ending(player, played, stdout=request.getfixturevalue(output))
    assert (result.errors, result.status) == ("twogtp: write fault\n", 3)


def test_game_has_no_line_where_its_report_cannot_be_written(player: Player, full: TextIO) -> None:
    refused = match(book(""), refusing("1/p1"), why=True)
    result = ending(player, refused, stderr=full)
    assert (result.output, result.status) == ("", 3)


def test_nothing_is_reported_without_why(player: Player, full: TextIO) -> None:
    refused = match(book(""), refusing("1/p1"), why=False)
    result = ending(player, refused, stderr=full)
    assert (result.output, result.status) == (LINE, 0)


# ---- many games: nothing is left, and nothing grows


class Usage(NamedTuple):
    """What a process has taken of the system."""

    peak_memory: int  # in kB
    data: int  # in kB
    open_files: int


def usage_of(process: int) -> Usage:
    """Returns what a process has taken up to now."""
    with open(f"/proc/{process}/status") as lines:
        status = dict(line.split(":", 1) for line in lines)
    peak, data = (int(status[name].split()[0]) for name in ("VmHWM", "VmData"))
    return Usage(peak, data, len(os.listdir(f"/proc/{process}/fd")))


@pytest.mark.parametrize(
    "black, games, result, status",
    [
        pytest.param(book(""), 1000, PASSED, 0, id="1,000 games"),
        pytest.param(
            passing("*/g1/<reply:5>/ends"),
            100,
            "abandoned black moves 0 restarts 1 0",
            1,
            id="100 games with engines that die",
        ),
    ],
)
def test_nothing_grows_in_many_games(
    player: Player, black: Engine, games: int, result: str, status: int
) -> None:
    lines, usages = [], []
    played = match(black, book(""), games=games)
    reader, writer = os.pipe()
    # It holds but some lines, so twogtp can't be far ahead of what is looked at.
    fcntl.fcntl(writer, F_SETPIPE_SZ, 4096)
    with player.start(played, timeout=10 * TIMEOUT, stdin=DEVNULL, stdout=writer) as process:
        os.close(writer)
        with open(reader) as output:
            for line in output:
                lines.append(line)
                with suppress(OSError, KeyError):  # it may have ended by now
                    usages.append(usage_of(process.pid))
        assert process.wait(TIMEOUT) == status
        assert wait_until(lambda: not is_alive(process.pid))
    assert lines == [f"game {number}: {result}\n" for number in range(1, games + 1)]
    assert len(usages) > 10
    assert 0 < max(usage.peak_memory for usage in usages) < 8192
    # The first few games may still bring in what all need, and while a process is started there is
    # a little more for a moment.
    first, last = usages[10:60], usages[-50:]
    assert min(usage.data for usage in last) <= max(usage.data for usage in first)
    # three streams, two pipes for each engine, and for a moment the other ends of the pipes
    assert 0 < max(usage.open_files for usage in usages) < 16
