"""Matches worked out by hand: why sides fail, as --why reports."""
from __future__ import annotations

from typing import Any, Iterator

from ...engine.values import BLACK, WHITE

from ..engines import LONG_PROGRAM, ODD_PROGRAM, Engine, Other, Planned
from ..matches import KOMI_LIMITS

from .rows import (
    ALL,
    ALL_BUT_ONE,
    FIRST,
    GENMOVE,
    NO,
    NO_POINT,
    NO_REPLY,
    OVERLONG,
    PASSED,
    REFUSED,
    Row,
    small,
    UNASKED,
    UNFIT,
    WRONG_ID,
    first,
    game,
    lost,
    match,
    passing,
    playing,
)


def wrote(text: str, *following: str) -> list[str]:
    """Returns the texts of what may have been read: this, and then one write more each time."""
    return ["".join((text, *following[:count])) for count in range(len(following) + 1)]


def answers(first: int, last: int) -> list[str]:
    """Returns the plain answers to the commands with these ids."""
    return [rf"={number}\n\n" for number in range(first, last + 1)]


def unread(owed: str, how: str) -> list[str]:
    """Returns the line of Black, where the write to an engine that has ended fails."""
    return [f"black: {owed}: writing failed, {how}; nothing of it was read"]


def sides_that_are_not_started() -> Iterator[Row]:
    """Yields sides that can't be started."""
    # Black is started first, so White isn't asked for where neither can be.
    for name, reason in (("no_such_program", "no such file"), ("/", "not allowed")):
        for white in (FIRST, Other(name)):
            reported = f'black: not started: {reason}: "{name}"'
            yield game(
                "abandoned black moves 0 restarts 1 0", Other(name), white, reported, reported
            )
        reported = f'white: not started: {reason}: "{name}"'
        yield game("abandoned white moves 0 restarts 0 0", FIRST, Other(name), reported, restarts=0)
    # The first word of a command is the program, whatever is in it but spaces; 80 bytes of it are
    # shown.
    for command, shown in [
        (ODD_PROGRAM, r"no_such\t\"program\"\\\n--mode\xC3\xA9"),
        (LONG_PROGRAM, "./no_such_program" + 63 * "x"),
    ]:
        reported = f'black: not started: no such file: "{shown}"'
        yield game(
            "abandoned black moves 0 restarts 0 0", Other(command), FIRST, reported, restarts=0
        )


def answers_that_are_no_moves() -> Iterator[Row]:
    """Yields answers to a genmove that are no moves, and resignations."""
    # A script has three commands, which are sent at once, so the first genmove to Black has the id
    # 4.
    yield game(PASSED, FIRST, FIRST, size=1, why=True)
    for reply, verdict, cause, shown in [
        ("?<id>_no_time_left", "no move", "no move: the genmove failed", "?4 no time left"),
        ("=<id>_A1_B2", "no vertex", NO_POINT, "=4 A1 B2"),
        (r"=<id>_D4\nwinrate_55%", "no vertex", NO_POINT, r"=4 D4\nwinrate 55%"),
        ("=<id>_D4_#_the_best_of_1000", "no vertex", NO_POINT, "=4 D4 # the best of 1000"),
        ("=<id>_dd", "no vertex", NO_POINT, "=4 dd"),
        ("=<id>_4-4", "no vertex", NO_POINT, "=4 4-4"),
        ("=<id>", "no vertex", NO_POINT, "=4"),
        (r"\r\n_=04\t\x22\x5c\x7f\xff\x80~", "no vertex", NO_POINT, r"\r\n =04\t\"\\\x7F\xFF\x80~"),
        ("=<id>_C1", "illegal move", "an illegal move: off the board", "=4 C1"),
    ]:
        black = passing(rf"1/g1/{reply}\n\n/on")
        yield small(
            f"W+F({verdict}) moves 0 restarts 0 0",
            black,
            FIRST,
            lost(GENMOVE, cause, rf"{shown}\n\n"),
        )
    yield small("W+R moves 0 restarts 0 0", passing(r"1/g1/=<id>_resign\n\n/on"), FIRST, why=True)
    reported = lost(GENMOVE, NO_POINT, f"=4 {77 * 'x'}")  # 80 bytes
    yield small(
        "W+F(no vertex) moves 0 restarts 0 0", passing(r"1/g1/=<id>_<90*x>\n\n/on"), FIRST, reported
    )


def illegal_moves() -> Iterator[Row]:
    """Yields answers to a genmove that are illegal moves."""
    reported = lost(
        '1 unanswered, "5 genmove w"', "an illegal move: the point is occupied", r"=5 A1\n\n", WHITE
    )
    yield small(
        "B+F(illegal move) moves 1 restarts 0 0", FIRST, passing(r"1/g1/=<id>_A1\n\n/on"), reported
    )
    reported = lost('1 unanswered, "10 genmove b"', "an illegal move: suicide", r"=10 B2\n\n")
    yield small(
        "W+F(illegal move) moves 6 restarts 0 0", playing("A1 B1 A2 B2"), passing(), reported
    )
    # White's A1 takes B1.
    reported = lost('1 unanswered, "10 genmove b"', "an illegal move: ko", r"=10 B1\n\n")
    yield game(
        "W+F(illegal move) moves 6 restarts 0 0",
        playing("A2 B1 pass B1"),
        playing("B2 C1 A1"),
        reported,
        size=3,
    )


def no_replies() -> Iterator[Row]:
    """Yields what is no reply, or none to what was asked."""
    # Bytes after a whole reply count for the next one. Of what is no reply all is shown that was
    # read; so here it comes in answer to the last command that was sent, after which nothing is
    # written.
    for plan, owes, cause, shown in [
        ("c3/hello", '1 unanswered, "3 clear_board"', NO_REPLY, "hello"),
        (
            r"c3/Welcome_to\tMyGo_1.0\r\n\n",
            '1 unanswered, "3 clear_board"',
            NO_REPLY,
            r"Welcome to\tMyGo 1.0\r\n\n",
        ),
        (r"c3/\xff<reply>", '1 unanswered, "3 clear_board"', NO_REPLY, r"\xFF=3\n\n"),
        (r"g1/\n\n_<90*x>", GENMOVE, NO_REPLY, rf"\n\n {77 * 'x'}"),  # 80 bytes
        (r"g1/playouts_1000\n<reply>", GENMOVE, NO_REPLY, r"playouts 1000\n=4 pass\n\n"),
        (r"c3/<reply>\n\x01!<reply>", "0 unanswered", NO_REPLY, r"\n\x01!=3\n\n"),
        (r"c1/<8193*\n>", '3 unanswered, the first "1 boardsize 2"', OVERLONG, r"\n" * 80),
        (r"c3/=<id>_<9000*a>", '1 unanswered, "3 clear_board"', OVERLONG, f"=3 {77 * 'a'}"),
        (r"c1/=\n\n", '3 unanswered, the first "1 boardsize 2"', WRONG_ID, r"=\n\n"),
        (r"c1/=<id-1>\n\n", '3 unanswered, the first "1 boardsize 2"', WRONG_ID, r"=0\n\n"),
        (r"c1/=_<id>\n\n", '3 unanswered, the first "1 boardsize 2"', WRONG_ID, r"= 1\n\n"),
        ("c1/<reply><reply>", '2 unanswered, the first "2 komi 0"', WRONG_ID, r"=1\n\n"),
        (r"c2/=<id+1>\n\n", '2 unanswered, the first "2 komi 0"', WRONG_ID, r"=3\n\n"),
        (r"c3/<reply>_\n=_x\n", GENMOVE, WRONG_ID, r" \n= x\n=4 pass\n\n"),
        ("c3/<reply><reply>", "0 unanswered", UNASKED, r"=3\n\n"),
    ]:
        reported = lost(owes, cause, shown)
        yield small("0 moves 2 restarts 1 0", passing(f"1/{plan}/on"), passing(), reported)
        yield small(
            "abandoned black moves 0 restarts 1 0",
            passing(f"*/{plan}/on"),
            passing(),
            reported,
            reported,
        )


def what_is_read_with_a_reply() -> Iterator[Row]:
    """Yields what is no reply, and is read with a reply or after it."""
    # A line after the answer to genmove is read with the answer: the move counts, and the side goes
    # down.
    reported = lost("0 unanswered", NO_REPLY, r"playouts 1000\n")
    black = passing(r"*/g1/<reply>playouts_1000\n/on")
    yield game("abandoned black moves 3 restarts 1 0", black, FIRST, reported, reported)
    # What was read before, since the last whole reply, is shown too.
    reported = lost('1 unanswered, "3 clear_board"', NO_REPLY, r" \x07\nhello\n\n")
    black = passing(r"1/c2/<reply>_\x07\n/on,1/c3/hello\n\n/on")
    yield small("0 moves 2 restarts 1 0", black, passing(), reported)


def programs_without_gtp() -> Iterator[Row]:
    """Yields what programs write that don't speak GTP."""
    # Our engine's junk, and a program that repeats in one write what it was sent in one.
    reported = lost(GENMOVE, NO_REPLY, r"hello\n\n")
    yield small(
        "abandoned black moves 0 restarts 0 0", first("junk:1"), FIRST, reported, restarts=0
    )
    script = r"1 boardsize 2\n2 komi 0\n3 clear_board\n"
    reported = lost('3 unanswered, the first "1 boardsize 2"', NO_REPLY, script)
    yield small("abandoned black moves 0 restarts 0 0", Other("cat"), FIRST, reported, restarts=0)
    # What GNU Go 3.8 writes where no mode is named, and, in short, in the mode for a person.
    reported = lost(ALL, NO_REPLY, r"\x01\xA1\xA0\x80")
    yield game(
        "abandoned black moves 0 restarts 0 0",
        passing(r"*/0/\x01\xa1\xa0\x80/on,*/c1-3//on"),
        FIRST,
        reported,
        restarts=0,
    )
    years = ", ".join(str(year) for year in range(1999, 2009))
    reported = lost(ALL, NO_REPLY, rf"GNU Go 3.8\nCopyright {years}\n")  # 80 bytes
    said = rf"GNU_Go_3.8\nCopyright_{years}\nand_2009\n\nBeginning_ASCII_mode_game.".replace(
        ",", r"\x2c"
    ).replace(" ", "_")
    yield game(
        "abandoned black moves 0 restarts 0 0",
        passing(rf"*/0/{said}\n\nblack(1):_/on"),
        FIRST,
        reported,
        restarts=0,
    )


def no_replies_and_answers() -> Iterator[Row]:
    """Yields what is no reply, and answers after it that may be read with it."""
    for plan, owed, shown in [
        ("c1/hello", ALL, wrote("hello", *answers(2, 3))),
        ("c2/hello", ALL_BUT_ONE, wrote("hello", *answers(3, 3))),
        (r"c1/<reply>\n\x01!_", ALL_BUT_ONE, wrote(r"\n\x01! ", *answers(2, 3))),
        (r"0/hello\n", ALL, wrote(r"hello\n", *answers(1, 3))),
        (r"c1/<76*x>", ALL, [76 * "x", 76 * "x" + r"=2\n\n"]),  # 80 bytes
        (r"c1/<77*x>", ALL, [77 * "x", 77 * "x" + r"=2\n"]),
        (
            r"c1-9/playouts_1000\n<reply>",
            ALL,
            wrote(*(rf"playouts 1000\n={number}\n\n" for number in (1, 2, 3))),
        ),
        (
            r"c1-9/<reply>ready\n",
            ALL_BUT_ONE,
            wrote(r"ready\n", *(rf"={number}\n\nready\n" for number in (2, 3))),
        ),
    ]:
        yield game(
            "W+6.5 moves 2 restarts 1 0",
            passing(f"1/{plan}/on"),
            passing(),
            lost(owed, NO_REPLY, shown),
        )
    prompts = wrote("GTP> ", *(rf"={number}\n\nGTP> " for number in (1, 2, 3)))
    prompting = passing(r"1/0/GTP\x3e_/on", "<reply>GTP>_")
    yield game(
        "abandoned black moves 0 restarts 0 0",
        prompting,
        passing(),
        lost(ALL, NO_REPLY, prompts),
        restarts=0,
    )


def no_replies_in_a_long_script() -> Iterator[Row]:
    """Yields what is no reply to a script of more than eight commands."""
    # Black is started again after 10 moves: its script has 13 commands, of which eight are sent at
    # once, and then as many as there were replies in the read before. There are answers after it to
    # no more commands than were sent.
    boardsize, komi, ended = '"1 boardsize 9"', '"2 komi 6.5"', "its output ended, exit status 0"
    late = [
        line
        for sent in (8, 9, 10)
        for line in lost(
            f'{sent - 2} unanswered, the first "3 clear_board"',
            NO_REPLY,
            wrote("hello", *answers(4, sent)),
        )
    ]
    early = wrote(r"hello\n", *answers(1, 8))
    second = f"8 unanswered, the first {komi}"
    for plan, reported in [
        ("c3/hello/on", late),
        ("c13/hello/on", lost('1 unanswered, "13 play w pass"', NO_REPLY, "hello")),
        (r"0/hello\n/on", lost(f"8 unanswered, the first {boardsize}", NO_REPLY, early)),
        ("c1//ends", lost(f"8 unanswered, the first {boardsize}", ended, "")),
        # The first read that brings a reply may be followed by a write, which may fail; or that
        # write goes through.
        ("c2//ends", [*lost(second, ended, ""), *unread(second, "exit status 0")]),
    ]:
        before = lost('1 unanswered, "14 genmove b"', ended, "")
        black = Planned(1, 0, "<reply>", f"1/g6//ends,2/{plan}")
        line = "abandoned black moves 10 restarts 1 0"
        yield game(line, black, passing(), before, reported, most_moves=11)


def commands_that_fail() -> Iterator[Row]:
    """Yields commands of the script that fail."""
    stones: dict[str, Any] = {"handicap": 2}
    asked = '1 unanswered, "4 fixed_handicap 2"'
    rows: list[tuple[str, str, str, str, dict[str, Any]]] = [
        ("c1", "?<id>_no", '3 unanswered, the first "1 boardsize 2"', "?1 no", {"size": 2}),
        ("c1", "?<id>_no", '3 unanswered, the first "1 boardsize 19"', "?1 no", {"size": 19}),
        ("c2", "?<id>_no", ALL_BUT_ONE, "?2 no", {}),
        ("h", "?<id>_no", asked, "?4 no", stones),
        ("h", "=<id>", asked, "=4", stones),
        ("h", "=<id>_C7_G3", asked, "=4 C7 G3", stones),
    ]
    for place, reply, owed, shown, values in rows:
        engine = passing(rf"1/{place}/{reply}\n\n/on")
        reported = lost(owed, UNFIT, rf"{shown}\n\n")
        yield game("unfit black moves 0 restarts 0 0", engine, passing(), reported, **values)
    reported = lost(asked, UNFIT, r"=4\n\n", WHITE)
    yield game(
        "unfit white moves 0 restarts 0 0",
        passing(),
        passing(r"1/h/=<id>\n\n/on"),
        reported,
        handicap=2,
    )


def broken_pipes() -> Iterator[Row]:
    """Yields outputs that end."""
    # White's second engine is sent three moves, and refuses the first.
    reported = lost('1 unanswered, "7 genmove w"', "its output ended, exit status 0", "", WHITE)
    more = lost('3 unanswered, the first "4 play b A1"', REFUSED, r"?4 no\n\n", WHITE)
    white = passing(f"1/g2//ends,2/p1/{NO}/on")
    yield small("B+F(refused play) moves 3 restarts 0 1", FIRST, white, reported, more)
    owed = '2 unanswered, the first "2 komi 0"'
    for plan, shown in (
        ("c2//ends", ""),
        ("c2/<reply:2>/ends", "=2"),
        (r"c1/<reply>\n/on,1/c2//ends", r"\n"),
    ):
        reported = lost(owed, "its output ended, exit status 0", shown)
        yield small("0 moves 2 restarts 1 0", passing(f"1/{plan}"), passing(), reported)
    reported = lost(
        '3 unanswered, the first "1 boardsize 2"', "its output ended, but it ran on", "=1"
    )
    yield small("0 moves 2 restarts 1 0", passing("1/c1/<reply:2>/closes"), passing(), reported)
    for fault, shown in (("stop:1", ""), ("cut:1:3", "=4 ")):
        reported = lost(GENMOVE, "its output ended, exit status 4", shown)
        black = first(fault)
        yield small("abandoned black moves 0 restarts 0 0", black, FIRST, reported, restarts=0)


def endings_of_engines() -> Iterator[Row]:
    """Yields the ways in which engines end, or close their output."""
    given_up = "abandoned black moves 0 restarts 1 0"
    # It ends, or closes its output and may be about to end, for which it has some 200 milliseconds.
    for then, shown, how in [
        ("/ends", "", "exit status 0"),
        ("/ends:-11", "", "signal 11"),
        ("/ends:-9", "", "signal 9"),
        ("/closes", "", "but it ran on"),
        ("=4_D/closes", "=4 D", "but it ran on"),
        ("/closes:7", "", "exit status 7"),
        ("/closes:-15", "", "signal 15"),
    ]:
        reported = lost(GENMOVE, f"its output ended, {how}", shown)
        yield game(given_up, passing(f"*/g1/{then}"), FIRST, reported, reported)
    # At its start, before it reads anything. It may have ended when it is sent something, or a
    # moment later.
    reported = lost(ALL, "its output ended, but it ran on", "")
    yield game(given_up, passing("*/0//closes"), FIRST, reported, reported)
    ending: list[tuple[Engine, str, list[str]]] = [
        (Other("echo hello"), "exit status 0", lost(ALL, NO_REPLY, r"hello\n")),
        (
            passing(r"*/0/usage:_mygo_[options]\n/ends"),
            "exit status 0",
            lost(ALL, NO_REPLY, r"usage: mygo [options]\n"),
        ),
        (
            passing("*/0//ends:127"),
            "exit status 127",
            lost(ALL, "its output ended, exit status 127", ""),
        ),
        (passing("*/0//ends:-11"), "signal 11", lost(ALL, "its output ended, signal 11", "")),
    ]
    for engine, how, said in ending:
        reported = [*said, *unread(ALL, how)]
        yield game(given_up, engine, passing(), reported, reported)


def writes_that_fail() -> Iterator[Row]:
    """Yields writes that fail, and lines of a second game."""
    # A write that fails: nothing is read after that. What was read since the last whole reply is
    # shown.
    for template, shown in (
        ("<reply>", "nothing of it was read"),
        (r"<reply>\n_=", r'it wrote "\n ="'),
    ):
        text = f'black: 1 unanswered, "5 play w A1": writing failed, but it ran on; {shown}'
        shut = passing(f"*/g1/{template}/shuts")
        yield small("abandoned black moves 2 restarts 0 0", shut, FIRST, text, restarts=0)
    # As often as it may be started: none of White's A1, B1 and C1 can be written.
    lines = [
        unread(f'1 unanswered, "{number} play w {vertex}"', "but it ran on")
        for number, vertex in ((5, "A1"), (7, "B1"), (9, "C1"))
    ]
    end = "abandoned black moves 6 restarts 2 0"
    yield game(end, passing("*/g1/<reply>/shuts"), FIRST, *lines, restarts=2)
    # The second process is that of the second game.
    [text] = lost(ALL, "its output ended, exit status 0", "")
    games = "game 1: W+6.5 moves 2 restarts 0 0\ngame 2: W+6.5 moves 2 restarts 1 0\n"
    two_games = match(passing("2/c1//ends"), passing(), games=2, why=True)
    yield Row(two_games, 0, games, [[f"twogtp: game 2: {text}\n"]])


def values_that_are_not_allowed() -> Iterator[Row]:
    """Yields matches whose values aren't allowed: nothing is started."""
    # With `--why` a second line says what is allowed. Komi is looked at before the handicap.
    handicap = "twogtp: on size {} the handicap may {}\n"
    rows: list[tuple[dict[str, Any], str, str]] = [
        ({"komi": "6.7"}, "bad komi", f"twogtp: {KOMI_LIMITS}\n"),
        ({"komi": "3.75", "handicap": 1}, "bad komi", f"twogtp: {KOMI_LIMITS}\n"),
        ({"size": 6, "handicap": 2}, "bad handicap", handicap.format(6, "only be 0")),
        ({"size": 7, "handicap": 5}, "bad handicap", handicap.format(7, "be 0, or 2 to 4")),
        ({"size": 8, "handicap": 1}, "bad handicap", handicap.format(8, "be 0, or 2 to 4")),
        ({"size": 10, "handicap": 9}, "bad handicap", handicap.format(10, "be 0, or 2 to 4")),
        ({"size": 19, "handicap": 1}, "bad handicap", handicap.format(19, "be 0, or 2 to 9")),
    ]
    for values, said, allowed in rows:
        for why in (False, True):
            lines = [[f"twogtp: {said}\n"], *[[allowed]] * why]
            wrong = match(passing(), passing(), why=why, **values)
            yield Row(wrong, 2, "", lines, {BLACK: "", WHITE: ""})
