"""Matches worked out by hand: whole games, and games with engines that go down or misbehave."""
from __future__ import annotations

from typing import Any, Iterator

from ...engine.values import BLACK, WHITE, Colour

from ..engines import Engine, Other

from .rows import (
    ALL,
    FIRST,
    NO,
    PASSED,
    Row,
    SETUP,
    SMALL,
    small,
    book,
    both_sides,
    first,
    game,
    lost,
    match,
    passing,
    playing,
    timed,
)


TWO_RECORD = "\nA1 B1 A2 B2 A1 A2 A1 B1 A2 B2"
TWO_BOARD = "\n. O 2\n. O 1\nA B\ncaptures B 3 W 5\n"
WALL_RECORD = "\nB1 pass B2 pass B3 pass pass"
WALL_BOARD = "\n. X . 3\n. X . 2\n. X . 1\nA B C\ncaptures B 0 W 0\n"
EMPTY_19 = (
    "".join(f"{19 * '. '}{row}\n" for row in range(19, 0, -1))
    + "A B C D E F G H J K L M N O P Q R S T\ncaptures B 0 W 0\n"
)
DEMO = "C3,D3,C2,D2,C4,D4,C1,A1,B1,D1,A2,D5,C5"
DEMO_GAME = """
C3 D3 C2 D2 C4 D4 C1 A1 B1 D1 A2 D5 C5 pass pass
. . X O . 5
. . X O . 4
. . X O . 3
X . X O . 2
. X X O . 1
A B C D E
captures B 1 W 0
"""
# White moves first: E5, E4 and a pass. Two stones each, and the rest is nobody's.
STONES_GAME = """
E5 pass E4 pass pass
. . . . . . . . . 9
. . . . . . . . . 8
. . . . . . X . . 7
. . . . . . . . . 6
. . . . O . . . . 5
. . . . O . . . . 4
. . X . . . . . . 3
. . . . . . . . . 2
. . . . . . . . . 1
A B C D E F G H J
captures B 0 W 0
"""


def wall(fault: str = "none") -> Engine:
    """Returns an engine of the game that the page on the controller plays again and again."""
    return book("B1,,B2,,B3", fault)


def whole_games() -> Iterator[Row]:
    """Yields whole games."""
    yield game(PASSED, FIRST, FIRST, size=1)
    # Komi below zero is Black's: nobody has a point of the board, and so Black wins by it. The
    # score comes before the limit of moves.
    yield game("B+3.5 moves 2 restarts 0 0", FIRST, FIRST, size=1, komi="-3.5")
    yield game(
        "B+999999999.5 moves 2 restarts 0 0",
        FIRST,
        FIRST,
        size=1,
        komi="-999999999.5",
        most_moves=2,
    )
    yield game("0 moves 2 restarts 0 0\npass pass", passing(), book(""), komi="0", record=True)
    yield game("B+74.5 moves 2 restarts 0 0", book(""), book(""), handicap=2)
    yield game(
        "limit moves 2 restarts 0 0\npass B2",
        passing(),
        playing("B2"),
        size=2,
        komi="0",
        most_moves=2,
        record=True,
    )
    # What is played where nothing is said: the board is empty, so White wins by the komi.
    yield game(f"{PASSED}\n{EMPTY_19}", book(""), book(""), size=19, restarts=2, show=True)
    yield game(PASSED, book(""), book(""), size=25, most_moves=2000, restarts=1000)
    yield game("limit moves 1 restarts 0 0", book(""), book(""), size=1, most_moves=1, restarts=0)


def games_that_are_shown() -> Iterator[Row]:
    """Yields games whose record and board are shown."""
    for record, show in ((True, True), (True, False), (False, True), (False, False)):
        ended = "limit moves 10 restarts 0 0" + record * TWO_RECORD + show * TWO_BOARD
        yield small(ended, FIRST, FIRST, record=record, show=show)
    yield game(
        f"B+8.5 moves 7 restarts 0 0{WALL_BOARD}", wall(), wall(), size=3, komi="0.5", show=True
    )
    for fault, restarts in (("none", 0), ("stop:5", 1)):
        line = f"B+4.5 moves 15 restarts {restarts} 0{DEMO_GAME}"
        yield game(line, book(DEMO, fault), book(DEMO), size=5, komi="0.5", record=True, show=True)
    # A record without moves is an empty line.
    yield game("W+R moves 0 restarts 0 0\n", book("resign"), FIRST, record=True)
    yield game("B+R moves 1 restarts 0 0\nA1", FIRST, book(",resign"), record=True)
    yield Row(
        match(FIRST, FIRST, size=1, games=2), 0, f"game 1: {PASSED}\ngame 2: {PASSED}\n", [], {}
    )
    line = "abandoned black moves 0 restarts 0 0\n"
    given_up = match(Other("no_such_program"), FIRST, games=2, restarts=0, record=True)
    yield Row(given_up, 1, f"game 1: {line}\ngame 2: {line}\n", [], {})


def walls(
    black: Engine,
    white: Engine,
    restarts: str,
    most: int = 3,
    line: str = "B+8.5 moves 7",
    moves: str = WALL_RECORD,
    board: str = WALL_BOARD,
) -> Row:
    """Returns the game of both walls, in which Black moves at 1, 3, 5 and 7."""
    ended = f"{line} restarts {restarts}{moves}{board}"
    return game(ended, black, white, size=3, komi="0.5", restarts=most, record=True, show=True)


def broken_games() -> Iterator[Row]:
    """Yields games in which engines fail: the same record and board."""
    # Our engine counts the genmoves that succeed since it was started, so it fails at each second
    # one: Black at move 3, and then each new engine of Black at the move after the one that it is
    # asked for first: 5 and 7. White moves at 2, 4 and 6.
    for fault in ("stop:2", "cut:2:6", "junk:2", "flood:2"):
        yield walls(wall(fault), wall(), "3 0")
        yield walls(wall(), wall(fault), "0 2")
        yield walls(wall(fault), wall(fault), "3 2")
        yield walls(
            wall(fault), wall(), "2 0", 2, "abandoned black moves 6", WALL_RECORD[: -len(" pass")]
        )
    yield walls(
        wall("stop:1"),
        wall(),
        "2 0",
        2,
        "abandoned black moves 0",
        "\n",
        WALL_BOARD.replace("X", "."),
    )
    yield walls(wall("stop:5"), wall(), "0 0")  # which doesn't come
    # Black's third genmove is for move 5. A new engine is asked for move 5, or is sent it where it
    # was read whole. The reply to its fourth genmove ends the game, so nobody needs Black any
    # longer.
    for fault, restarts in (("stop:3", 1), ("cut:3:6", 1), ("cut:3:100", 1), ("cut:4:100", 0)):
        yield walls(wall(fault), wall(), f"{restarts} 0")


def broken_games_with_captures_or_handicap() -> Iterator[Row]:
    """Yields the same with captures, and with handicap."""
    # With captures: of five genmoves the fourth is for move 7 of Black and move 8 of White; a new
    # engine is asked for two more or one.
    game_of_two: dict[str, Any] = {**SMALL, "record": True, "show": True}
    yield game(
        f"limit moves 10 restarts 1 0{TWO_RECORD}{TWO_BOARD}", first("stop:4"), FIRST, **game_of_two
    )
    yield game(
        f"limit moves 10 restarts 0 1{TWO_RECORD}{TWO_BOARD}",
        FIRST,
        first("cut:4:3"),
        **game_of_two,
    )
    # With handicap.
    stones: dict[str, Any] = {"handicap": 2, "record": True, "show": True}
    yield game(
        f"W+6.5 moves 5 restarts 0 1{STONES_GAME}", book(""), book("E5,,E4", "stop:3"), **stones
    )
    yield game(
        f"W+6.5 moves 5 restarts 1 0{STONES_GAME}", book("", "stop:2"), book("E5,,E4"), **stones
    )


def given_up(engine: Engine, black_moves: int, white_moves: int) -> Iterator[Row]:
    """Yields games in which this engine is given up, as Black and as White, after so many moves."""
    black = f"abandoned black moves {black_moves} restarts 1 0"
    white = f"abandoned white moves {white_moves} restarts 0 1"
    return both_sides(engine, FIRST, black, white)


def sides_that_go_down() -> Iterator[Row]:
    """Yields games with engines that go down before a move."""
    for name in ("no_such_program", "/", "true", "echo hello", "cat"):
        yield from given_up(Other(name), 0, 0)
    yield game("abandoned white moves 0 restarts 0 2", FIRST, Other("no_such_program"), restarts=2)
    # Their first reply, or the second, is none. They are started again, and then given up.
    # It ends, or closes its output: at its start, when it is sent something, in the middle of its
    # reply, or after it.
    plans = "0//ends 0//closes c1//ends c1//closes c1/<reply:2>/ends c1/<reply:3>/ends"
    # Another id, or none; a second reply, or replies without end.
    plans += r" c1/<reply>/ends c2/=1\n\n/on c1/=\n\n/on c1/=<id+1>\n\n/on c1/<reply><reply>/on"
    # What is no reply, or has no end.
    plans += r" 0/=1\n\n/floods c1/hello/on 0/Welcome_to_Go\n/on c1/<8193*\n>/on"
    plans += r" c1/<fill:8193:_><reply>/on 0/<1000*\n>/floods 0/=1_/floods"
    for plan in plans.split(" "):
        yield from given_up(passing(f"*/{plan}"), 0, 0)
    yield game(PASSED, passing("1/c1/<fill:8192:_><reply>/on"), passing())
    # Black is brought into the game before White is, so it is Black that is given up. White was
    # started all the same.
    for plan in ("*/0//ends", r"*/0/<1000*\n>/floods"):
        yield game("abandoned black moves 0 restarts 1 0", passing(plan), passing(plan))


def sides_that_go_down_at_a_move() -> Iterator[Row]:
    """Yields games whose engines go down at moves."""
    # At a move, again and again; before White is asked, Black has made one.
    for plan in ("g1//ends", "g1/<reply:5>/ends", r"g1/=<id>_pass\n/ends", "g1//closes"):
        yield from given_up(passing(f"*/{plan}"), 0, 1)
    # The first reply is a move, the second puts the side down. As Black it passes, White plays A1,
    # it passes as a new process, and is given up. As White it passes after Black's A1 and after
    # Black's second move. Where the other side passes too, the game is over before Black would be
    # needed again, and with White's first reply.
    twice = passing("*/g1/<reply><reply>/on")
    yield from given_up(twice, 3, 4)
    yield from both_sides(twice, passing(), "W+6.5 moves 2 restarts 1 0", PASSED)
    # The write of White's move fails. Where White passes too, the game is over before.
    shut = passing("*/g1/<reply>/shuts")
    yield from given_up(shut, 4, 5)
    yield game(PASSED, shut, passing())
    # It replies to the move that it is sent as it did to the genmove before: as Black after the
    # moves 2 and 4, as White after 3 and 5.
    old = r"=<id-1>\n\n/on"
    yield game("abandoned black moves 4 restarts 1 0", passing(f"1/p1/{old},2/p3/{old}"), FIRST)
    yield game("abandoned white moves 5 restarts 0 1", FIRST, passing(f"1/p2/{old},2/p4/{old}"))
    # It goes down when it is sent a move, and is sent all moves again. As Black it has passed, and
    # White has played A1; then its own pass is the first move that it is sent.
    half = passing("*/p1/<reply:2>/ends")
    yield from given_up(half, 2, 1)


def replies_to_a_genmove() -> Iterator[Row]:
    """Yields replies to a genmove, on 2x2 where Black is asked first."""
    for reply, end in [
        ("?<id>_no", "F(no move)"),
        ("?<id>_A1", "F(no move)"),
        ("=<id>_A1_B2", "F(no vertex)"),
        (r"=<id>_A1\nB2", "F(no vertex)"),
        ("=<id>_I5", "F(no vertex)"),
        ("=<id>_A01", "F(no vertex)"),
        ("=<id>", "F(no vertex)"),
        ("=<id>_C1", "F(illegal move)"),
        ("=<id>_T19", "F(illegal move)"),
        ("=<id>_RESIGN", "R"),
        ("=<id>_rEsIgN_", "R"),
    ]:
        engine = passing(rf"1/g1/{reply}\n\n/on")
        yield from both_sides(
            engine, FIRST, f"W+{end} moves 0 restarts 0 0", f"B+{end} moves 1 restarts 0 0", size=2
        )
    # A1 is legal once. As Black it comes again after White's move, as White after Black's A1.
    always = passing(r"1/g1-2/=<id>_A1\n\n/on")
    yield from both_sides(
        always,
        FIRST,
        "W+F(illegal move) moves 2 restarts 0 0",
        "B+F(illegal move) moves 1 restarts 0 0",
    )
    for reply in ("=00<id>_pass", r"\r\n_\n=<id>\t_PaSs_\r", "=<id>pass", r"\x01=<id>_pa\x7fss"):
        yield game(PASSED, passing(rf"1/g1/{reply}\n\n/on"), passing(), size=2)
    for reply in (r"=<id>_\nA1", r"=<id>\nA1", "=00<id>_a1"):
        yield game(
            "limit moves 1 restarts 0 0\nA1",
            passing(rf"1/g1/{reply}\n\n/on"),
            passing(),
            size=2,
            most_moves=1,
            record=True,
        )


def replies_to_the_script() -> Iterator[Row]:
    """Yields replies to the script, and to all commands."""
    # To the script. A handicap has to be answered by its points.
    no = passing(f"1/c1/{NO}/on")
    yield from both_sides(
        no, FIRST, "unfit black moves 0 restarts 0 0", "unfit white moves 0 restarts 0 0", size=2
    )
    yield game(PASSED, passing(r"1/c1/=001_as_you_like\n\n/on"), passing(), size=2)
    for reply in ("=<id>_C3_C3", "=<id>", "=<id>_C7_G3"):
        engine = passing(rf"1/h/{reply}\n\n/on")
        yield from both_sides(
            engine,
            passing(),
            "unfit black moves 0 restarts 0 0",
            "unfit white moves 0 restarts 0 0",
            handicap=2,
        )
    yield game(
        "B+74.5 moves 2 restarts 0 0", passing(), passing(r"1/h/=<id>_g7\tC3\n\n/on"), handicap=2
    )
    # All replies: CR before LF; and what others seldom do, each byte by itself: blank lines before
    # a reply, texts where none is due, ids with zeros, tabs, the stones in another order.
    yield game(PASSED, passing(style=r"=<id>_<text>\r\n\r\n"), passing())
    odd = ",".join(
        rf"*/{place}/\r\n_\n=00<id>_{text}\r\n\r\n/bytes"
        for place, text in (("h", r"g7\tc3_"), ("g1-9", "__PaSs_"), ("c1-9", r"some\r\nwords"))
    )
    yield from both_sides(passing(odd), book(""), *2 * ["B+74.5 moves 2 restarts 0 0"], handicap=2)


def engines_that_are_asked_to_quit() -> Iterator[Row]:
    """Yields games that are over by two passes, whatever the engines do at quit."""
    # It ends without a reply, or late; closes its output; replies and doesn't end, or is stopped;
    # writes what is no reply, or without end.
    for plan in (
        "/ends",
        "/late",
        "<reply>/late",
        "/closes",
        "<reply>/shuts",
        "<reply>/ends:-19",
        r"hello\n/on",
        r"<1000*\n>/floods",
    ):
        yield from both_sides(passing(f"*/q/{plan}"), book(""), PASSED, PASSED)


def waiting(
    sent: dict[Colour, str], black: Engine, white: Engine, output: str = "", **values: Any
) -> Row:
    """Returns a match that waits for ever, once these are sent and this is written."""
    return Row(match(black, white, **values), None, output, sent=sent)


def engines_that_make_the_match_wait() -> Iterator[Row]:
    """Yields matches that wait for ever."""
    # A reply ends with two newlines. Until it does, the match waits. Up to eight commands of the
    # script are sent without waiting, and of these there are three, so all three are sent to an
    # engine of whose replies none is whole.
    for engine in (
        passing("*/c1-9//refuses"),
        passing("*/c3//refuses"),
        passing(style=r"=<id>\n"),
        passing(style=r"=<id>\r\r"),
    ):
        yield waiting({BLACK: SETUP}, engine, FIRST)
    asked_black = f"{SETUP}4 genmove b\n"
    asked_white = f"{SETUP}4 play b pass\n5 genmove w\n"
    yield waiting({BLACK: asked_black}, passing("*/g1//on"), passing())
    yield waiting({WHITE: asked_white}, passing(), passing("*/g1//on"))
    # What is written of a game is there while an engine is asked to quit, and while the next game
    # is played.
    line = f"game 1: {PASSED}\n"
    yield waiting({BLACK: f"{asked_black}quit\n"}, passing("*/q//on"), passing(), line)
    yield waiting({WHITE: f"{asked_white}quit\n"}, passing(), passing("*/q//on"), line)
    both_games = {BLACK: f"{asked_black}quit\n{SETUP}"}
    yield waiting(both_games, passing("2/c1-9//refuses"), book(""), line, games=2)


def silent_engines_behind_timeout() -> Iterator[Row]:
    """Yields games with engines that `timeout` ends."""
    black, white = (lost(ALL, "its output ended, exit status 124", "", side) for side in Colour)
    yield game("abandoned black moves 0 restarts 0 0", timed("c1-9"), FIRST, black, restarts=0)
    yield game("abandoned black moves 0 restarts 1 0", timed("c1-9"), FIRST, black, black)
    yield game("abandoned white moves 0 restarts 0 0", FIRST, timed("c1-9"), white, restarts=0)
    # It has the time to play before it is ended.
    yield from both_sides(timed("q", seconds=10), book(""), PASSED, PASSED)
