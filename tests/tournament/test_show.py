"""tournament show: the games of a file as a page."""
from __future__ import annotations

from typing import Any, Dict, List, Tuple

import pytest

from .browser import answer
from .html_page import read
from .runner import Runner


def games_of(runner: Runner, text: str, *words: str) -> List[Dict[str, Any]]:
    """Returns the games of the page of a text."""
    runner.write("file", text)
    assert runner.tournament("show", "file", *words) == (0, "file.html\n", "")
    return list(read(runner.folder / "file.html").data["games"])


def moves_of(game: Dict[str, Any]) -> List[List[int]]:
    """Returns the colour and the number of each move of a game."""
    return [[step["side"], step["move"]] for step in game["steps"]]


# ---- twogtp --record


def test_record_of_twogtp(runner: Runner) -> None:
    text = (
        "game 1: B+R moves 3 restarts 0 0\nA1 pass C2\n. . . 3\n. . X 2\nX . . 1\nA B C\n"
        "captures B 0 W 0\n\ngame 2: W+F(no move) moves 0 restarts 0 0\n\n"
    )
    one, two = games_of(runner, text, "--size", "3", "--komi=-1.5")
    assert (one["size"], one["komi"], one["first"]) == (3, "-1.5", 1)
    # points row by row from A1, and 9 for the pass
    assert moves_of(one) == [[1, 0], [2, 9], [1, 5]]
    assert (one["result"], one["atEnd"]) == ("B+R", "The end: B+R")
    assert (two["steps"], two["result"]) == ([], "W+F")


def test_record_has_no_size_and_no_komi(runner: Runner) -> None:
    (game,) = games_of(runner, "game 1: limit moves 1 restarts 0 0\nT19\n")
    assert (game["size"], game["komi"], moves_of(game)) == (19, "6.5", [[1, 360]])
    # with a handicap White is first: on 9x9 two stones are C3 and G7
    text = "game 1: limit moves 2 restarts 0 0\nA1 B1\n"
    (game,) = games_of(runner, text, "--size=9", "--handicap=2")
    assert (game["black"], game["first"]) == ([2 * 9 + 2, 6 * 9 + 6], 2)
    assert moves_of(game) == [[2, 0], [1, 1]]


def test_links_to_games_are_none_without_the_script(runner: Runner) -> None:
    games_of(runner, "game 1: B+R moves 0 restarts 0 0\n\ngame 2: W+R moves 0 restarts 0 0\n\n")
    page = read(runner.folder / "file.html")
    links = [element.attributes for element in page.elements if element.name == "a"]
    assert links == [{"data-to": f"#game=game-{number}"} for number in (1, 2)]


MISTAKES: Dict[str, Tuple[str, List[str], str]] = {
    "off the board": (
        "game 1: B+R moves 2 restarts 0 0\nA1 D4\n",
        ["--size=3"],
        "move 2 of game 1, D4, is off a board of 3x3: give --size",
    ),
    "without a record": (
        "game 1: B+R moves 2 restarts 0 0\n",
        [],
        "game 1 has no record of 2 moves: did twogtp have --record?",
    ),
    "no game": (
        "# nothing\n",
        [],
        "file has no game: it is to be what twogtp --record writes, SGF, or GTP commands",
    ),
    "SGF with a fault": (
        "(;SZ[9];B[aa)",
        [],
        "file can't be read as SGF: line 1, column 10: this value of B lacks its end, ]",
    ),
    "size": ("boardsize 5\n", ["--size", "26"], "--size '26': it is from 1 to 25"),
    "ko": (
        "boardsize 5\n",
        ["--ko", "super"],
        "--ko needs simple or positional after it, and not 'super'",
    ),
    "size of a conversation": ("boardsize 0\n", [], "'boardsize 0' has no size from 1 to 25"),
}


@pytest.mark.parametrize("name", MISTAKES)
def test_mistake(name: str, runner: Runner) -> None:
    text, words, message = MISTAKES[name]
    runner.write("file", text)
    assert runner.tournament("show", "file", *words) == (2, "", f"tournament: {message}\n")
    assert not (runner.folder / "file.html").exists()


# ---- SGF


def test_sgf(runner: Runner) -> None:
    text = (
        "(;GM[1]SZ[3]KM[0.5]AB[ac]PB[one]PW[two]RE[W+R]GN[night];W[bb]C[a </script><script>b];B[]"
        ";AE[ac]AW[ca](;B[cc])(;B[aa]))"
    )
    (game,) = games_of(runner, text)
    assert (game["title"], game["engines"], game["result"]) == ("night", ["one", "two"], "W+R")
    # ac is A1, which is 0; Black has a stone more, so White is first
    assert (game["black"], game["first"], game["komi"]) == ([0], 2, "0.5")
    first, second, third, fourth = game["steps"]
    assert first == {"side": 2, "move": 4, "text": "a </script><script>b"}
    assert second == {"side": 1, "move": 9}
    assert third["board"] == {"size": 3, "first": 1, "black": [], "white": [4, 8]}
    assert fourth == {"side": 1, "move": 2}
    # a comment ends no script, neither as data nor in the table of moves
    page = read(runner.folder / "file.html")
    assert len(page.own_scripts) == 1 and page.rows[""][1][2] == "a </script><script>b"


# ---- conversations

# by hand: White takes the stone at B1 with A1, so Black may not retake at once under simple ko
KO = """\
1 boardsize 5
2 komi 6.5
3 clear_board
4 play b A2
5 play w C1
6 play b B1
7 play w B2
8 play w A1
"""
BLOCK = (
    """\
check: "x", version "1.0", seed 1, simple ko
# 1 ko: "10 play b B1": it was refused
"""
    + KO
    + """\
9 play b pass
# . . . . . 5
# A B C D E
10 play b B1
# it wrote: "?10 illegal move\\n\\n"
# right: legal: it captures 1 stone of white: A1
# asked before this answer was read:
11 play w E5

# 2 genmoves: "3 genmove w": an illegal move
1 boardsize 2
2 genmove b
# = B2
3 genmove w
# it wrote: "=3 B2\\n\\n"
# right: the point has a stone
"""
)


def test_block_of_gtp_check(runner: Runner) -> None:
    one, two = games_of(runner, BLOCK)
    assert one["title"] == "ko: 10 play b B1: it was refused"
    assert (one["size"], one["komi"], len(one["steps"])) == (5, "6.5", 10)
    last = one["steps"][-1]
    assert (last["side"], last["move"], last["refused"]) == (1, 1, True)
    assert "the reply: illegal move" in last["text"] and "captures 1 stone" in last["text"]
    assert [step.get("move") for step in two["steps"]] == [None, 3, 3]
    assert [step.get("refused", False) for step in two["steps"]] == [False, False, True]


@pytest.mark.parametrize(
    "moves, ko, refused",
    [
        pytest.param("play b B1", "simple", [True], id="simple ko"),
        pytest.param("play b pass\nplay b B1", "simple", [False, False], id="after a pass"),
        pytest.param("play b pass\nplay b B1", "positional", [False, True], id="positional ko"),
        pytest.param("play b A1\nplay w C1", "simple", [True, True], id="occupied"),
        pytest.param(
            "9 play b D1\n?9 no\n\n10 play b D1\n=10\n\n", "simple", [True, False], id="replies"
        ),
    ],
)
def test_refused_moves(moves: str, ko: str, refused: List[bool], runner: Runner) -> None:
    (game,) = games_of(runner, f"{KO}{moves}\n", "--ko", ko)
    steps = game["steps"][8:]
    assert [step.get("refused", False) for step in steps] == refused


@pytest.mark.chromium
@pytest.mark.xdist_group("chromium")
def test_conversation_in_a_browser(runner: Runner) -> None:
    text = f"{KO}undo\nplay w D4\nundo\nundo\nfixed_handicap 4\nboardsize 3\nplay w pass\n"
    games_of(runner, text)
    script = """
    const [game] = games, found = positionsOf(game);
    return found.slice(8).map((position, at) => [textOf(game, position, at + 8), asText(position)]);
    """
    played, *others = answer(runner.folder / "file.html", script)
    # White's capture, which comes back by undo
    empty = ". . . . . 5\n. . . . . 4\n. . . . . 3\n"
    taken = f"{empty}X O . . . 2\nO . O . . 1\nA B C D E\ncaptures B 0 W 1\n"
    before = f"{empty}X O . . . 2\n. X O . . 1\nA B C D E\ncaptures B 0 W 0\n"
    with_d4 = before.replace(". . . . . 4", ". . . O . 4")
    without_b2 = before.replace("X O . . . 2", "X . . . . 2")
    small = ". . . 3\n. . . 2\n. . . 1\nA B C\ncaptures B 0 W 0\n"
    assert played == ["8 of 15: 8 play w A1, captures 1; ko at B1", taken]
    assert [board for _, board in others] == [
        *(before, with_d4, before, without_b2),
        *(without_b2, small, small),
    ]
    assert others[-1][0] == "15 of 15: play w pass. The end"
