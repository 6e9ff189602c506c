"""Where the bytes of twogtp and of its engines go while its standard streams are closed."""
import re
from pathlib import Path

from tests.shared.closed_streams import (
    ERRORS,
    OUTPUT,
    Closed,
    NotingEngine,
    Result,
    check_text,
    check_without_null_device,
    each_text,
    each_way,
    run_closed,
    with_closed,
)

# What each engine is sent in a match of two passes. Black's pass goes to White; White's ends it.
SETUP = "1 boardsize 3\n2 komi 6.5\n3 clear_board\n"
BLACK_READS = SETUP + "4 genmove b\n"
WHITE_READS = SETUP + "4 play b pass\n5 genmove w\n"
LINE = "game 1: W+6.5 moves 2 restarts 0 0\n"


@each_text
def test_texts(twogtp: Path, option: str, status: int, tmp_path: Path) -> None:
    check_text(twogtp, option, status, "Plays", tmp_path)


@each_way
def test_match(twogtp: Path, closed: Closed, tmp_path: Path) -> None:
    black, white = NotingEngine("black", tmp_path), NotingEngine("white", tmp_path)
    sides = ["--black", black.command(), "--white", white.command()]
    result = run_closed([twogtp, "--size", "3", *sides], closed, tmp_path)
    wanted = with_closed(Result(0, LINE, ""), closed, "twogtp")
    assert (result.status, result.output) == (wanted.status, wanted.output)
    # the engines start side by side, so either may speak first
    spoken = [] if ERRORS in closed else ["black speaks", "white speaks"]
    assert sorted(result.errors.splitlines()) == sorted(spoken + wanted.errors.splitlines())
    # an output that is closed ends the engines at once
    quit = "" if OUTPUT in closed else "quit\n"
    assert (black.read(), white.read()) == (BLACK_READS + quit, WHITE_READS + quit)
    black.check_streams(closed)
    white.check_streams(closed)


@each_way
def test_engine_that_is_not_there(twogtp: Path, closed: Closed, tmp_path: Path) -> None:
    # a line of --why that can't be written is a write fault too
    white = NotingEngine("white", tmp_path)
    sides = ["--black", str(tmp_path / "nothing"), "--white", white.command()]
    result = run_closed([twogtp, "--restarts", "0", "--why", *sides], closed, tmp_path)
    lines = [line for line in result.errors.splitlines() if line != "white speaks"]
    status, output = 1, "game 1: abandoned black moves 0 restarts 0 0\n"
    reported = ["twogtp: game 1: black: not started: no such file"]
    if closed & {OUTPUT, ERRORS}:
        status, output = 3, ""
        reported.append("twogtp: write fault")
    assert (result.status, result.output) == (status, output)
    errors = [re.sub(r"(not started: no such file).*", r"\1", line) for line in lines]
    assert errors == ([] if ERRORS in closed else reported)


@each_way
def test_without_a_null_device(
    twogtp: Path, gtp_engine: Path, closed: Closed, tmp_path: Path
) -> None:
    sides = ["--black", "bin/gtp_engine", "--white", "bin/gtp_engine"]
    command = ["bin/twogtp", "--size", "3", "--max-moves", "1", *sides]
    result = Result(0, "game 1: limit moves 1 restarts 0 0\n", "")
    check_without_null_device([twogtp, gtp_engine], command, "", result, closed, tmp_path)
