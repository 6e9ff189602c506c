"""What a process does that another one was before, and the first answers after a start.

The file of these engines is $WRONG_ENGINE_STATE, or else one in the folder of temporary files, each
bug its own.
"""
import json
import os
import tempfile

from tests.engines.wrong.bug import FORCED, KO, RESTART, Bug, instead_of, on, shown_by
from tests.references.engine.engine import Failure
from tests.references.engine.game import Board, points
from tests.references.engine.values import BLACK, PASS, RESIGN, WHITE, Colour


class Kept(Bug):
    """An engine that keeps something in a file for the next process. `old` is what the file had at
    the start."""

    def __init__(self, *options):
        super().__init__(*options)
        own = f"{os.environ.get('TMPDIR', '/tmp')}/wrong_engine_{os.getuid()}_{type(self).__name__}"
        self.file = os.environ.get("WRONG_ENGINE_STATE") or own
        self.old = None
        if os.path.exists(self.file):
            with open(self.file) as file:
                self.old = json.load(file)

    def keep(self, value):
        """Keeps this value in the file."""
        with open(self.file, "w") as file:
            json.dump(value, file)


@shown_by(["1 name", RESTART, "1 name"], "= plain")
class LockStays(Kept):
    """A file says that the engine is running, and only `quit` removes it, so the next process ends
    at once."""

    def run(self):
        if self.old:
            self.find_it_running()
        self.keep("running")
        super().run()

    def find_it_running(self):
        """Does what follows if the file says so."""
        raise SystemExit(1)

    def do_quit(self, arguments):
        os.remove(self.file)
        super().do_quit(arguments)


class KeptBoard(Kept):
    """An engine that keeps the board."""

    def keep_board(self):
        self.keep([self.size, list(self.board.items())])

    def bring_back(self):
        """Restores the board of the file, once, if that has this size."""
        size, stones = self.old or (0, [])
        if size == self.size:
            self.board = Board(((column, row), Colour(stone)) for (column, row), stone in stones)
        self.old = None


@shown_by([*on(5, "b C3"), RESTART, *on(5, "", "play b C3")], "=")
class OldGameComesBack(KeptBoard):
    """The first `clear_board` of a process brings back the game that an earlier one has left, as
    after a crash."""

    def do_clear_board(self, arguments):
        super().do_clear_board(arguments)
        self.bring_back()

    def move(self, colour, point):
        super().move(colour, point)
        self.keep_board()


@shown_by([*on(5, "b C3"), RESTART, *on(5, "", "undo")], "?")
class OldMovesAreUndone(Kept):
    """The record is a file that no start empties, so `undo` succeeds where an earlier process has
    moved."""

    def move(self, colour, point):
        super().move(colour, point)
        self.keep(len(self.moves))

    def do_undo(self, arguments):
        if self.moves or not self.old:
            super().do_undo(arguments)
        else:
            self.old -= 1


@shown_by(["komi 6.5", RESTART, *on(5, "", "komi 0.5", "final_score")], "= W+0.5")
class OldKomiStays(Kept):
    """The komi of an earlier process is a setting that no command changes."""

    def do_komi(self, arguments):
        super().do_komi(arguments)
        self.komi = self.komi if self.old is None else self.old
        self.keep(self.komi)


@shown_by(["boardsize 9", RESTART, *on(5, "", "play b F6")], "?")
class OldSizeStays(Kept):
    """`clear_board` makes a board of the size that an earlier process had first."""

    def do_boardsize(self, arguments):
        super().do_boardsize(arguments)
        if self.old is None:
            self.keep(self.size)

    def do_clear_board(self, arguments):
        self.begin(self.old or self.size)


@shown_by([*on(3, FORCED, "genmove b"), RESTART, *on(3, "w A1", "genmove b")], "but A1")
class OldGameIsABook(Kept):
    """The first move that an earlier process chose is chosen again, whatever is there."""

    def choose(self, colour):
        if self.old is not None and self.old < self.size**2:
            index, self.old = self.old, None
            return self.point(index)
        point = super().choose(colour)
        if isinstance(point, tuple) and not os.path.exists(self.file):
            self.keep(self.index(point))
        return point


@shown_by([*on(5, KO), RESTART, *on(5, "", "play b B1")], "=")
class OldKoStays(Kept):
    """The point of a ko is in the file, so a process begins with the ko that an earlier one has
    left."""

    def move(self, colour, point):
        super().move(colour, point)
        pairs = [
            (mover, place)
            for place in points(self.size)
            if place not in self.board
            for mover in (BLACK, WHITE)
        ]
        found = [pair for pair in pairs if super(OldKoStays, self).is_ko(self.put(*pair), *pair)]
        self.keep([(mover, self.index(place)) for mover, place in found])

    def is_ko(self, board, colour, point):
        return super().is_ko(board, colour, point) or (
            not self.moves and [colour, self.index(point)] in (self.old or [])
        )


@shown_by([*on(9, "", "fixed_handicap 2"), RESTART, *on(9, "", "fixed_handicap 2")], "points C3 G7")
class OldHandicapStays(Kept):
    """A file says that the handicap was placed, and a later process refuses another one."""

    def is_untouched(self):
        return not self.old and super().is_untouched()

    def place_handicap(self, points):
        super().place_handicap(points)
        self.keep("placed")


@shown_by(["name", RESTART, "name", RESTART, *on(5, "", "genmove b")], "but")
class TrialIsOver(Kept):
    """The third process of a trial version refuses `genmove`."""

    def run(self):
        self.keep((self.old or 0) + 1)
        super().run()

    def choose(self, colour):
        if (self.old or 0) >= 2:
            raise Failure("the trial is over")
        return super().choose(colour)


@instead_of("run", ["1 name"], "= plain", plain=False)
def byte_order_mark(self, right):
    """The first reply of a process has a byte order mark in front of it."""
    self.send("\xef\xbb\xbf")
    right()


@instead_of("run", ["1 name"], "= plain", plain=False)
def greeting(self, right):
    """The engine greets on standard output before its first reply."""
    self.send("This is plain 1.\n")
    right()


@instead_of("run", ["1 name"], "= plain", plain=False, waits=True)
def first_read_is_lost(self, right):
    """What a process reads first is thrown away, as by an engine that empties its input once it is
    ready."""
    self.receive()
    right()


@shown_by(on(9, "", "genmove b"), "but", plain=False)
class FirstGenmoveIsOf19(Bug):
    """The first move of a process was prepared on 19x19, and is chosen on each size."""

    prepared = True

    def do_genmove(self, arguments):
        text = super().do_genmove(arguments)
        first, self.prepared = self.prepared, False
        return "Q16" if first and self.size < 16 else text


@shown_by(on(5, "b C3", "genmove w", "play b C3"), "?")
class FirstGenmoveClearsTheBoard(Bug):
    """The first `genmove` of a process makes the tables, and with them an empty board."""

    ready = False

    def choose(self, colour):
        point = super().choose(colour)
        if not self.ready:
            self.begin(self.size)
            self.ready = True
        return point


@shown_by(on(5, "b C3", "undo"), "=")
class UndoNeedsAGenmove(Bug):
    """The list that `undo` uses is made by the first `genmove` of a process, and before that `undo`
    fails."""

    ready = False

    def choose(self, colour):
        self.ready = True
        return super().choose(colour)

    def do_undo(self, arguments):
        if not self.ready:
            raise Failure("cannot undo")
        super().do_undo(arguments)


@shown_by(["boardsize 5", "komi 6.5", "clear_board", "final_score"], "= W+6.5")
class FirstKomiIsLost(Bug):
    """The first `clear_board` of a process sets komi back to 0, and later ones don't."""

    ready = False

    def do_clear_board(self, arguments):
        super().do_clear_board(arguments)
        self.komi = self.komi if self.ready else 0
        self.ready = True


@shown_by(["1 name", RESTART, "1 name"], "= plain")
class NoteAfterACrash(LockStays):
    """Where the process before wasn't ended by `quit`, a line that says so is in front of the first
    reply."""

    def find_it_running(self):
        self.send("the last game was not saved\n")


@shown_by([*on(3, FORCED, "genmove b"), RESTART, *on(3, FORCED, "genmove w")], "moves pass")
class ChoiceIsKeptByItsBoard(Kept):
    """Choices are kept in the file by the board alone, and a later process takes them for the other
    colour too."""

    def __init__(self, *options):
        super().__init__(*options)
        self.choices = dict(self.old or {})

    def choose(self, colour):
        stones = sorted((point, stone.value) for point, stone in self.board.items())
        board = f"{self.size} {stones}"
        old = (self.old or {}).get(board)
        point = old and self.read_vertex(old) or super().choose(colour)
        assert point is not RESIGN  # no engine here resigns
        self.choices[board] = self.write_vertex(point)
        self.keep(self.choices)
        return point


@shown_by([*on(5, "b C3 w D4"), RESTART, *on(5, "w A1 w B1", "undo", "play w A1")], "?")
class OldBoardComesBackAtUndo(KeptBoard):
    """`undo` reads the board from a file, and the first one of a process reads what an earlier
    process left there."""

    def move(self, colour, point):
        self.keep_board()
        super().move(colour, point)

    def undo(self):
        super().undo()
        self.bring_back()


@shown_by([*["1 name", RESTART] * 10, "1 name"], "= plain")
class EleventhStartFails(Kept):
    """Each process has a log of its own, with one of ten names, and the eleventh process ends at
    once."""

    def run(self):
        starts = (self.old or 0) + 1
        if starts > 10:
            raise SystemExit(1)
        self.keep(starts)
        super().run()


@shown_by([*on(5, "b C3 w D3"), RESTART, *on(5, "b C3", "play w D3")], "=")
class GameIsResumedAtItsFirstMove(Kept):
    """Where the first move of a process is that of the game in the file, the rest of that game is
    played too."""

    def move(self, colour, point):
        super().move(colour, point)
        (size, moves), self.old = self.old or (0, []), None
        if size == self.size and moves[:1] == [[colour, self.write_vertex(point)]]:
            for mover, text in moves[1:]:
                super().move(mover, self.read_vertex(text) or PASS)
        self.keep_moves()

    def keep_moves(self):
        self.keep([self.size, [(colour, self.write_vertex(point)) for colour, point in self.moves]])

    def undo(self):
        super().undo()
        self.keep_moves()


@shown_by([*on(5, "b C3", "genmove w"), RESTART, *on(5, "b C3", "genmove b")], "but C3")
class OldColourStays(Kept):
    """The colour that the engine chose for is a setting in the file, and a later process fails for
    the other one."""

    def choose(self, colour):
        if self.old not in (None, colour):
            raise Failure("not my colour")
        self.keep(colour)
        return super().choose(colour)


@shown_by([*on(9, "", "genmove b"), RESTART, *on(1, "", "genmove b")], "moves pass")
class BookHasNoSizes(Bug):
    """Early chosen moves are a book in a file, by the moves before them alone. A later process uses
    it on each size."""

    most = 20  # moves before a chosen one that is kept

    def __init__(self, *options):
        super().__init__(*options)
        self.file = os.environ.get("WRONG_ENGINE_STATE") or os.path.join(
            tempfile.gettempdir(), "wrong_engine_book"
        )
        self.book = dict(line.rstrip("\n").split(":") for line in self.pages())

    def pages(self):
        """Returns the lines of the file, each the moves, a colon and the answer."""
        if not os.path.exists(self.file):
            return []
        with open(self.file, encoding="ascii") as file:
            return file.readlines()

    def do_genmove(self, arguments):
        if len(self.moves) >= self.most:
            return super().do_genmove(arguments)
        colour = self.argument(arguments, 0, self.read_colour)
        moves = [f"{mover} {self.write_vertex(point)}" for mover, point in self.moves]
        page = ",".join([*moves, colour])
        if page in self.book:
            return self.from_book(colour, self.book[page])
        answer = super().do_genmove(arguments)
        with open(self.file, "a", encoding="ascii") as file:
            file.write(f"{page}:{answer}\n")
        return answer

    def from_book(self, colour, answer):
        """Makes the move of an answer that is in the book, as far as the board has it."""
        point = self.place(self.read_vertex(answer) or PASS)
        if point is not None:
            self.move(colour, point)
        return answer
