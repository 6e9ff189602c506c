"""Where the bytes of gtp_check and of its engine go while its standard streams are closed."""
import re
from pathlib import Path

from tests.shared.closed_streams import (
    ALL_OPEN,
    ERRORS,
    OUTPUT,
    Closed,
    NotingEngine,
    check_text,
    check_without_null_device,
    each_text,
    each_way,
    run_closed,
)

SUMMARY = re.compile(r"check: \d+ commands, \d+ starts, 0 complaints\n\Z")
# a command that gtp_check may send, with its id
COMMAND = re.compile(
    r"(?:(\d+) (?:name|version|clear_board|undo|final_score"
    r"|(?:known_command|boardsize|komi|play|genmove|fixed_handicap) .+)|quit)\n"
)


@each_text
def test_texts(gtp_check: Path, option: str, status: int, tmp_path: Path) -> None:
    check_text(gtp_check, option, status, "Checks", tmp_path)


@each_way
def test_check(gtp_check: Path, gtp_engine: Path, closed: Closed, tmp_path: Path) -> None:
    engine = NotingEngine("checked", tmp_path, gtp_engine)
    lessons = ["--only", "start", "--only", "restarts"]
    result = run_closed([gtp_check, *lessons, engine.command()], closed, tmp_path)
    assert result.status == (3 if OUTPUT in closed else 0)
    assert (SUMMARY.search(result.output) is None) == (OUTPUT in closed)
    # an engine that is still writing when the program ends reports that too
    lines = result.errors.splitlines()
    lines = [line for line in lines if OUTPUT not in closed or line != "gtp_engine: write fault"]
    faults = ["gtp_check: write fault"] if OUTPUT in closed and ERRORS not in closed else []
    assert [line for line in lines if line in faults] == faults
    assert {*lines} - {*faults} == (set() if ERRORS in closed else {"checked speaks"})
    engine.check_streams(closed)


@each_way
def test_engine_reads_numbered_commands_and_quit(
    gtp_check: Path, gtp_engine: Path, closed: Closed, tmp_path: Path
) -> None:
    engine = NotingEngine("checked", tmp_path, gtp_engine)
    lessons = ["--only", "start", "--only", "restarts"]
    run_closed([gtp_check, *lessons, engine.command()], closed, tmp_path)
    read = engine.read()
    has_quit = "quit\n" in read
    count = read.count("\n") - has_quit
    assert COMMAND.findall(read) == [*map(str, range(1, count + 1)), *[""] * has_quit]
    assert read.endswith("\nquit\n") == (OUTPUT not in closed)


@each_way
def test_without_a_null_device(
    gtp_check: Path, gtp_engine: Path, closed: Closed, tmp_path: Path
) -> None:
    options = ["--only", "start"]
    result = run_closed([gtp_check, *options, gtp_engine], ALL_OPEN, tmp_path)
    assert (result.status, "0 complaints" in result.output, result.errors) == (0, True, "")
    command = ["bin/gtp_check", *options, "bin/gtp_engine"]
    check_without_null_device([gtp_check, gtp_engine], command, "", result, closed, tmp_path)
