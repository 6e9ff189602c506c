"""Where the bytes of gtp_engine go while its standard streams are closed."""
from pathlib import Path

from tests.shared.closed_streams import (
    INPUT,
    Closed,
    Result,
    check_text,
    check_without_null_device,
    each_text,
    each_way,
    run_closed,
    with_closed,
)

COMMANDS = "1 name\n2 quit\n"
REPLIES = "=1 stepgo\n\n=2\n\n"


@each_text
def test_texts(gtp_engine: Path, option: str, status: int, tmp_path: Path) -> None:
    check_text(gtp_engine, option, status, "A Go engine", tmp_path)


@each_way
def test_conversation(gtp_engine: Path, closed: Closed, tmp_path: Path) -> None:
    result = Result(0, REPLIES, "")
    if INPUT in closed:
        result = Result(3, "", "gtp_engine: read fault\n")
    wanted = with_closed(result, closed, "gtp_engine")
    assert run_closed([gtp_engine], closed, tmp_path, COMMANDS) == wanted


@each_way
def test_without_a_null_device(gtp_engine: Path, closed: Closed, tmp_path: Path) -> None:
    result = Result(0, REPLIES, "")
    check_without_null_device([gtp_engine], ["bin/gtp_engine"], COMMANDS, result, closed, tmp_path)
