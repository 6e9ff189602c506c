"""Matches worked out by hand in which moves are refused."""
from __future__ import annotations

from typing import Iterator, Optional

from ...engine.values import BLACK, WHITE, Colour

from ..engines import Planned

from .rows import (
    FIRST,
    KEPT_MOVE,
    NO,
    NO_REPLY,
    PASSED,
    POSITIONAL_FIRST,
    REFUSED,
    Row,
    SETUP,
    small,
    UNASKED,
    book,
    game,
    lost,
    passing,
    playing,
    refusing,
)


def refused_moves() -> Iterator[Row]:
    """Yields refusals."""
    # On 2x2 Black's A1 is refused. It plays A1 again, and then B1 and A2; B2 would be suicide, so
    # it passes. White passes each time. The fourth refusal of one number is a forfeit.
    for places in (["1/p1"], ["1/p1-2"], ["1/p1-3"], ["1/p2-4"], ["1/p1-3", "1/p5-7", "1/p9-11"]):
        yield small("B+4 moves 7 restarts 0 0", FIRST, refusing(*places))
    yield small("B+F(refused play) moves 1 restarts 0 0", FIRST, refusing("1/p1-4"))
    yield small("B+F(refused play) moves 3 restarts 0 0", FIRST, refusing("1/p4-7", "1/p1-2"))
    # It plays A1, is asked to take it back, and plays it once more: nothing else is on the board.
    shown = "B+F(refused play) moves 1 restarts 0 0\nA1\n. . 2\nX . 1\nA B\ncaptures B 0 W 0\n"
    yield small(shown, FIRST, refusing("1/p1-2000"), record=True, show=True)
    # As Black it has passed before it is sent a move.
    yield game("W+F(refused play) moves 2 restarts 0 0", refusing("1/p1-2000"), FIRST)


def what_is_sent_after_refusals() -> Iterator[Row]:
    """Yields what engines are sent that refuse, and whose moves are refused."""
    # What both are sent.
    asked = "".join(f"{number} genmove b\n{number + 1} undo\n" for number in (4, 6, 8))
    sent = {
        BLACK: f"{SETUP}{asked}10 genmove b\nquit\n",
        WHITE: SETUP + "".join(f"{number} play b pass\n" for number in (4, 5, 6, 7)),
    }
    yield game("B+F(refused play) moves 1 restarts 0 0", passing(), refusing("1/p1-4"), sent=sent)
    asked = "4 genmove b\n5 play w C3\n6 genmove b\n" + "".join(
        f"{number} play w D4\n" for number in (7, 8, 9, 10)
    )
    yield game(
        "W+F(refused play) moves 4 restarts 0 0",
        refusing("1/p2-5"),
        book(",C3,,D4"),
        sent={BLACK: SETUP + asked},
    )
    # It takes the move in the end: it has passed, is sent C3 and passes, and then the other side
    # passes, which has the whole board.
    for place in ("1/p1", "1/p1-3"):
        yield game("W+87.5 moves 4 restarts 0 0", refusing(place), book(",C3"))
        yield game(PASSED, book(",C3"), refusing(place))


def refusals_by_positional_ko() -> Iterator[Row]:
    """Yields refusals of an engine that knows the positional rule of ko."""
    # An engine of the positional rule refuses the seventh move, which makes the board that stood
    # after the first. Black makes it again each time. It doesn't play such a move itself, and
    # passes, and so does White, whose play would be suicide.
    forfeit = "B+F(refused play) moves 7 restarts 0 0"
    shown = f"{forfeit}\nA1 B1 A2 B2 A1 A2 A1\n. . 2\nX . 1\nA B\ncaptures B 3 W 3\n"
    yield small(shown, FIRST, POSITIONAL_FIRST, record=True, show=True)
    said = [rf"?{number} illegal move\n\n" for number in (10, 11, 12, 13)]
    lines = [retaken(WHITE, "play b A1", count, 9 + count, said[count - 1]) for count in (1, 2, 3)]
    last = lost('1 unanswered, "13 play b A1"', REFUSED, said[3], WHITE)
    yield small(forfeit, FIRST, POSITIONAL_FIRST, *lines, last)
    for white in (FIRST, POSITIONAL_FIRST):
        shown = "W+4 moves 8 restarts 0 0\nO O 2\n. O 1\nA B\ncaptures B 0 W 3\n"
        yield small(shown, POSITIONAL_FIRST, white, show=True)


def refusals_and_restarts() -> Iterator[Row]:
    """Yields refusals of engines that are started again."""
    # The count of a number is kept when the side that refuses is started again, and when it takes
    # the move in between.
    yield small(
        "B+F(refused play) moves 1 restarts 0 1", FIRST, passing(f"*/p1-2/{NO}/on,*/p3//ends")
    )
    yield small(
        "B+4 moves 7 restarts 0 1", FIRST, passing(f"1/p1-2/{NO}/on,1/p3//ends,2/p1/{NO}/on")
    )
    yield small(
        "B+F(refused play) moves 1 restarts 0 1",
        FIRST,
        passing(f"1/p1-3/{NO}/on,1/g1//ends,2/p1/{NO}/on"),
    )
    # When it is sent the game again, it may refuse neither an earlier move of the other side nor
    # one of its own.
    yield small(
        "B+F(refused play) moves 3 restarts 0 1", FIRST, passing(f"1/g2//ends,2/p1/{NO}/on")
    )
    yield small(
        "B+F(refused play) moves 3 restarts 0 1", FIRST, passing(f"1/g2//ends,2/p2/{NO}/on")
    )
    yield small("B+4 moves 7 restarts 0 1", FIRST, passing(f"1/g2//ends,2/p3/{NO}/on"))
    yield small(
        "W+F(refused play) moves 1 restarts 1 0",
        passing(f"1/g1/<reply><reply>/on,2/p1/{NO}/on"),
        FIRST,
    )


def undoes_that_fail() -> Iterator[Row]:
    """Yields undoes that fail."""
    # The side that made the move fails to take it back: the side that refused it forfeits.
    for reply in ("?<id>_no", "?<id>", "?0<id>_no"):
        undoes = passing(rf"1/u1/{reply}\n\n/on")
        yield small("B+F(refused play) moves 1 restarts 0 0", undoes, refusing("1/p1"))
    yield small(
        "W+F(refused play) moves 2 restarts 0 0",
        refusing("1/p1"),
        Planned(1, 0, "<reply>", f"1/u1/{NO}/on"),
    )


def undoes_that_are_not_answered() -> Iterator[Row]:
    """Yields undoes that are not answered."""
    # The side that made a refused move goes down before it says that the move is taken back, or the
    # other side does.
    for plan in ("", "hello", "=<id+1>", "=<id-1>", "=", "?", "?<id+1>", r"<8193*\n>"):
        reply = plan + r"\n\n" if plan else plan
        then = "on" if plan else "ends"
        # The move leaves the record. Started again, Black passes again, and White takes it.
        yield small("0 moves 2 restarts 1 0", passing(f"1/u1/{reply}/{then}"), refusing("1/p1"))
        yield small(
            "abandoned black moves 0 restarts 1 0",
            passing(f"*/u1/{reply}/{then}"),
            refusing("1/p1-2"),
        )
        white = Planned(1, 0, "<reply>", f"*/u1/{reply}/{then}")
        yield small("abandoned white moves 1 restarts 0 1", refusing("1/p1-2"), white)
    yield small("0 moves 2 restarts 1 0", passing("1/u1/<reply>/ends"), refusing("1/p1"))
    yield small("0 moves 2 restarts 1 0", passing("1/u1/<reply><reply>/on"), refusing("1/p1"))
    # The move is taken when it comes again. For its next move that engine plays it too, which is
    # illegal.
    white = passing(r"*/g1-9/=<id>_C3\n\n/on,*/u1//ends")
    yield game("B+F(illegal move) moves 3 restarts 0 1", refusing("1/p1"), white)


def sides_that_refuse_and_go_down() -> Iterator[Row]:
    """Yields sides that go down when they refuse a move, or when theirs is refused."""
    # The side that refused the move goes down at once. Where it can be started again, the move is
    # taken back before that; where it can't, the match is over, and the move stays.
    falls = passing(f"1/p1/{NO}hello/on")
    yield small("0 moves 2 restarts 0 1", passing(), falls)
    yield small("abandoned white moves 1 restarts 0 0", passing(), falls, restarts=0)
    yield small("B+F(refused play) moves 1 restarts 0 0", passing(f"1/u1/{NO}/on"), falls)
    yield small(
        "abandoned black moves 0 restarts 1 0",
        passing("*/u1//ends"),
        passing(f"1/p1/{NO}/on,1/p2/{NO}hello/on"),
    )
    yield small("0 moves 2 restarts 1 1", passing("1/u1//ends"), falls)
    # White goes down after each of its moves. Black is sent the move before White's next engine is
    # sent the game, so nothing has to be taken back; the fourth refusal is a forfeit all the same.
    white = Planned(1, 0, "<reply>", "*/g1/<reply><reply>/on")
    yield small("W+F(refused play) moves 2 restarts 0 4", refusing("1/p1-4"), white, restarts=4)
    # Black's next engine is sent the game first, so it has the move, and takes it back; then it
    # makes its own, and goes down.
    black = passing("*/g1/<reply><reply>/on")
    yield small("B+F(refused play) moves 1 restarts 4 0", black, refusing("1/p1-4"), restarts=4)


def retaken(
    side: Colour, command: str, count: int, number: int, shown: Optional[str] = None
) -> list[str]:
    """Returns the line of a move that this side has refused by a command, and that is retaken."""
    cause = f"{REFUSED} (retake {count} of 3)"
    wrote = rf"?{number} no\n\n" if shown is None else shown
    return lost(f'1 unanswered, "{number} {command}"', cause, wrote, side)


def retakes() -> Iterator[Row]:
    """Yields refusals that are retaken, a line each."""
    # White is sent its first play as its fourth command, and Black answers an undo, and plays A1
    # again, before White's next one.
    one, two, three = (retaken(WHITE, "play b A1", count, count + 3) for count in (1, 2, 3))
    yield small("B+4 moves 7 restarts 0 0", FIRST, refusing("1/p1"), one)
    yield small("B+4 moves 7 restarts 0 0", FIRST, refusing("1/p1-3"), one, two, three)
    # The fourth refusal is a loss, by White's seventh command.
    last = r'white: 1 unanswered, "7 play b A1": the play was refused; it wrote "?7 no\n\n"'
    yield small(
        "B+F(refused play) moves 1 restarts 0 0", FIRST, refusing("1/p1-4"), one, two, three, last
    )
    # Each number is counted by itself: after A1 White is asked for its move by the sixth command,
    # and sent B1 by the seventh.
    black, white = playing("A1 A1 B1 B1"), refusing("1/p1", "1/p3")
    again = retaken(WHITE, "play b B1", 1, 7)
    yield game(
        "limit moves 4 restarts 0 0", black, white, one, again, size=2, komi="0", most_moves=4
    )
    # Another move takes the place of one that was refused: A1, then B1. It is the same number, and
    # so its second retake. Then A2 stays.
    other = retaken(WHITE, "play b B1", 2, 5)
    yield small(
        "B+4 moves 3 restarts 0 0", playing("A1 B1 A2 pass"), refusing("1/p1-2"), one, other
    )
    # So with an engine that reads J as the tenth column, and refuses J3 and J8: Black plays D4
    # then, and both pass.
    columns = [retaken(WHITE, "play b J3", 1, 4), retaken(WHITE, "play b J8", 2, 5)]
    line = "B+74.5 moves 3 restarts 0 0\nD4 pass pass"
    yield game(line, playing("J3 J8 D4 pass"), refusing("1/p1-2"), *columns, record=True)


def lines_of_retakes() -> Iterator[Row]:
    """Yields what is shown of a retake."""
    one = retaken(WHITE, "play b A1", 1, 4)
    # Both refuse.
    black = passing(rf"1/g1-2/=<id>_A1\n\n/on,1/p1/{NO}/refuses")
    mine = retaken(BLACK, "play w pass", 1, 7)
    yield small("B+4 moves 3 restarts 0 0", black, refusing("1/p1"), one, mine)
    # Blank lines before the refusal are shown too, and 80 bytes of a long one.
    for reply, shown in ((r"\n_?<id>\n\n", r"\n ?4\n\n"), (r"?<id>_<90*x>\n\n", "?4 " + 77 * "x")):
        text = retaken(WHITE, "play b A1", 1, 4, shown)
        yield small("B+4 moves 7 restarts 0 0", FIRST, passing(f"1/p1/{reply}/refuses"), text)
    # The undo fails: Black fails by it, after White's retake.
    kept = lost('1 unanswered, "5 undo"', KEPT_MOVE, r"?5 no\n\n")
    refused = retaken(WHITE, "play b pass", 1, 4)
    yield small(
        "B+F(refused play) moves 1 restarts 0 0",
        passing(f"1/u1/{NO}/on"),
        refusing("1/p1"),
        refused,
        kept,
    )


def retakes_and_losses() -> Iterator[Row]:
    """Yields retakes of sides that go down."""
    refused = retaken(WHITE, "play b pass", 1, 4)
    # A retake and a loss in one read: the retake comes first, also where no undo follows, since
    # White has no start left.
    falls = passing(f"1/p1/{NO}hello/on")
    hello = lost("0 unanswered", NO_REPLY, "hello", WHITE)
    yield small("0 moves 2 restarts 0 1", passing(), falls, refused, hello)
    yield small(
        "abandoned white moves 1 restarts 0 0", passing(), falls, refused, hello, restarts=0
    )
    stray = lost("0 unanswered", UNASKED, r"?4 no\n\n", WHITE)
    yield small("0 moves 2 restarts 0 1", passing(), passing(f"1/p1/{NO}{NO}/on"), refused, stray)
    texts = [text for count in (1, 2, 3) for text in (retaken(WHITE, "play b A1", count, 4), hello)]
    yield game(
        "abandoned white moves 1 restarts 0 2",
        FIRST,
        passing(f"*/p1/{NO}hello/on"),
        *texts,
        restarts=2,
    )
    # The maker is down: no undo follows. White goes down after each of its moves, which Black
    # refuses: its pass as command 5, 6, 7, 8.
    down = lost("0 unanswered", UNASKED, r"=5 A1\n\n", WHITE)
    white = passing(r"*/g1/=<id>_A1\n\n=<id>_A1\n\n/on")
    texts = [
        text
        for count in (1, 2, 3)
        for text in (down, retaken(BLACK, "play w A1", count, count + 4))
    ]
    final = lost('1 unanswered, "8 play w A1"', REFUSED, r"?8 no\n\n")
    yield small(
        "W+F(refused play) moves 2 restarts 0 4",
        refusing("1/p1-4"),
        white,
        *texts,
        down,
        final,
        restarts=4,
    )
