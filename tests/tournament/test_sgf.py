"""The module that reads and writes SGF."""
from __future__ import annotations

import shutil
import subprocess
import sys
from pathlib import Path
from typing import Any, List, Tuple

import pytest

from .inside import module
from .runner import SCRIPTS

sgf = module("sgf")


def first_game(text: str) -> Any:
    """Returns the root of the first game of a text."""
    return sgf.read(text)[0]


def moves_of(text: str) -> List[Tuple[str, object]]:
    """Returns the moves of the main line of the first game, each with its colour."""
    root = first_game(text)
    moves = [node.move(root.size()) for node in root.main_line()]
    return [(move.colour, move.point) for move in moves if move]


def test_module_stands_alone(tmp_path: Path) -> None:
    shutil.copy(SCRIPTS / "vintsaky_tournament/sgf.py", tmp_path / "alone.py")
    code = "import sys; sys.path.insert(0, '.'); import alone; print(len(alone.read('(;)(;)')))"
    done = subprocess.run(
        [sys.executable, "-I", "-S", "-c", code], cwd=tmp_path, capture_output=True
    )
    assert (done.stdout, done.stderr) == (b"2\n", b"")


# ---- reading


def test_main_line_is_the_first_variation() -> None:
    text = "mail\n( ;SZ[9]\n;B[aa] (;W[bb](;B[cc];W[])(;B[dd])) (;W[ee];B[ff]))"
    assert moves_of(text) == [("B", (1, 9)), ("W", (2, 8)), ("B", (3, 7)), ("W", None)]


@pytest.mark.parametrize("end", ["\x1a", "\r\n\x1a", "\0", "\x1a\0\0\n"])
def test_end_of_a_file_of_dos(end: str) -> None:
    assert moves_of(f"(;SZ[9];B[aa]){end}") == [("B", (1, 9))]


def test_very_long_line_of_variations() -> None:
    depth = 20000
    text = "(;B[aa]" * depth + ")" * depth
    assert sum(1 for _ in first_game(text).main_line()) == depth


@pytest.mark.parametrize(
    "size, value, point",
    [
        pytest.param(1, "aa", (1, 1), id="size 1"),
        pytest.param(9, "ai", (1, 1), id="the lower left corner"),
        pytest.param(19, "tt", None, id="a pass as before FF[4]"),
        pytest.param(20, "tt", (20, 1), id="a point where a board is too large for that"),
        pytest.param(25, "ya", (25, 25), id="size 25"),
        pytest.param(25, "", None, id="a pass"),
    ],
)
def test_points(size: int, value: str, point: object) -> None:
    assert moves_of(f"(;SZ[{size}];W[{value}])") == [("W", point)]
    if value != "tt" or point:
        assert sgf.point_value(point, size) == value


def test_board_has_size_19_if_nothing_is_said() -> None:
    assert moves_of("(;B[as])") == [("B", (1, 1))]
    assert first_game("(;SZ[ 13 : 13 ])").size() == 13


def test_points_of_a_list_and_of_rectangles() -> None:
    root = first_game("(;SZ[9]AB[aa]\n [bc:cb]AddBlack[ii])")
    points = [(1, 9), (2, 7), (3, 7), (2, 8), (3, 8), (9, 1)]
    assert root.points("AB", 9) == points
    assert root.points("AW", 9) == []


TALK = r"""C[Meijin NR: yeah, k4 is won\
derful
sweat NR: thank you! :\)
jansteen 4d: Can anyone\
 explain [me\] k4?]"""
READ_TALK = """\
Meijin NR: yeah, k4 is wonderful
sweat NR: thank you! :)
jansteen 4d: Can anyone explain [me] k4?"""


@pytest.mark.parametrize("line_break", ["\n", "\r\n", "\r", "\n\r"])
def test_text(line_break: str) -> None:
    text = f"(;{TALK}PB[a\tb\n\\\\c\\\nd]W[aa])".replace("\n", line_break)
    root = first_game(text)
    assert root.value("C").text() == READ_TALK
    assert root.value("PB").line() == "a b \\cd"
    assert root.value("W").place == (7, 4)


@pytest.mark.parametrize(
    "data",
    [
        pytest.param("(;CA[UTF-8]C[é])".encode(), id="UTF-8"),
        pytest.param("(;C[é])".encode("utf-8-sig"), id="UTF-8 that isn't named"),
        pytest.param("(;C[é])".encode("latin-1"), id="Latin-1"),
        pytest.param("(;CA[cp437]C[é])".encode("cp437"), id="as CA says"),
        pytest.param("(;CA[nothing]C[é])".encode(), id="an unknown CA"),
        pytest.param("(;CA[base64]C[é])".encode(), id="what is no set of characters"),
    ],
)
def test_sets_of_characters(data: bytes) -> None:
    assert sgf.read(data)[0].value("C").text() == "é"


def test_backslash_in_a_character_of_two_bytes() -> None:
    data = "(;CA[shift_jis]C[表])".encode("shift_jis")
    assert b"\\" in data
    assert sgf.read(data)[0].value("C").text() == "表"


# what is wrong, and the line and the column
WRONG = {
    "no game": ("SZ[9]", "line 1, column 1: there is no game: one begins by (;"),
    "no end": ("(;)\n (;B[aa]\n(;W[bb])", "line 2, column 2: the game that begins here lacks its"),
    "no end of a value": ("(;B[aa]\n;W[b\\])", "line 2, column 3: this value of W lacks its end"),
    "no value": ("(;SZ;B[aa])", "line 1, column 3: SZ has no value: one is in brackets"),
    "no name": ("(;\n[aa])", "line 2, column 1: '[' isn't expected here: a property is such as"),
    "a name in small letters": ("(;b[aa])", "line 1, column 3: 'b' isn't expected here"),
    "no node": ("(;B[aa](W[bb]))", "line 1, column 9: 'W' isn't expected here: a node begins by"),
    "an empty variation": ("(;B[aa]())", "line 1, column 9: ')' isn't expected here: a node"),
    "a node behind a variation": (
        "(;B[aa](;W[bb]);B[cc])",
        "line 1, column 16: ';' isn't expected here: a variation is in parentheses",
    ),
    "a parenthesis too much": ("(;))", "line 1, column 4: ')' isn't expected here: a game begins"),
    "what no tool ends a file with": ("(;)\x1b", "line 1, column 4: '\x1b' isn't expected here"),
    "an end between games": ("(;)\x1a(;)", "line 1, column 4: '\x1a' isn't expected here: a game"),
    "an end in a game": ("(;B[aa]\x1a", "line 1, column 1: the game that begins here lacks its"),
    "text between games": ("(;)\nB[aa](;)", "line 2, column 1: 'B' isn't expected here: a game"),
    "a large board": ("(;SZ[26];B[aa])", "line 1, column 5: SZ needs a size from 1 to 25"),
    "no square": (
        "(;SZ[9:13];B[aa])",
        "line 1, column 5: SZ needs a size from 1 to 25 of a square",
    ),
    "off the board": ("(;SZ[9]\n;B[aj])", "line 2, column 3: 'aj' is no point of a 9x9 board"),
    "tt of a stone": ("(;AB[tt];B[aa])", "line 1, column 5: 'tt' is no point of a 19x19 board"),
    "capitals": ("(;B[AA])", "line 1, column 4: 'AA' is no point of a 19x19 board"),
    "two moves": ("(;B[aa][bb])", "line 1, column 8: B has more than one value"),
    "a move twice": ("(;B[aa]B[bb])", "line 1, column 9: B has more than one value"),
    "both colours": ("(;W[aa]B[bb])", "line 1, column 9: a node can't have a move of Black and"),
}


@pytest.mark.parametrize("text, said", WRONG.values(), ids=WRONG)
def test_what_is_wrong(text: str, said: str) -> None:
    with pytest.raises(sgf.SgfError) as raised:
        root = sgf.read(text)[-1]
        size = root.size()
        for node in root.main_line():
            node.move(size), node.points("AB", size)
    assert str(raised.value).startswith(said)


# ---- writing

AWKWARD = ["]", "\\", "a:b", "[x\\]", "\\\\]", "é\u3000表", "B+F(illegal move)", "two\nlines\n"]


def test_texts_are_read_as_they_were_written() -> None:
    nodes = [{"C": sgf.text_value(text), "AB": ["aa", "bb"]} for text in AWKWARD]
    read = list(first_game(sgf.write(nodes)).main_line())
    assert [node.value("C").text() for node in read] == AWKWARD
    assert all(node.points("AB", 19) == [(1, 19), (2, 18)] for node in read)


def test_text_of_a_game() -> None:
    version = sgf.composed_value("a:b", "1]\n2")
    moves = [{"B": ""}, {"W": "aa"}] * 6
    text = "(;GM[1]AP[a\\:b:1\\] 2]AB[aa][bb]\n"
    text += ";B[];W[aa]" * 5 + "\n;B[];W[aa])\n"
    assert sgf.write([{"GM": "1", "AP": version, "AB": ["aa", "bb"]}, *moves]) == text
