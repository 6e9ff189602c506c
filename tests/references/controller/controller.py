"""The controller of a match: docs/controller.md in Python, as literal as can be.

The caller says what happened, and the controller what to do next. A side is named by the colour
that it plays.
"""
from __future__ import annotations

from enum import Enum
from typing import Callable, NamedTuple, Optional

from ..engine import values
from ..engine.game import Game, Move, is_on
from ..engine.values import BLACK, PASS, WHITE, Colour, Point, Vertex

from . import replies, why
from .replies import NoReply, Reply
from .why import Sent

SIDES = [BLACK, WHITE]
MOST_UNANSWERED = 8
MOST_RETAKES = 3  # of one move number in a match


class Action(Enum):
    """What a controller wants done for a side."""

    START = "start"
    SEND = "send"
    WAIT = "wait"
    DONE = "done"


class Next(NamedTuple):
    """What to do next; there is no side when the match is done."""

    action: Action
    side: Optional[Colour] = None


class Setup(NamedTuple):
    """A match's values."""

    size: int
    komi: int  # in half points
    handicap: int
    most_moves: int
    most_restarts: int


class Report(NamedTuple):
    """What is reported: that a side fails, or that it refused a move that is retaken.

    One of these texts is written: the first where all runs as it does here, and another one of a
    loss where that is a question of time.
    """

    side: Colour
    texts: list[str]
    is_loss: bool = True


class Rest(NamedTuple):
    """What was read since the last whole reply, and how many commands were confirmed then."""

    confirmed: int
    data: bytes


class Write(NamedTuple):
    """A write to a side: what is unanswered then, and what was read since the last whole reply."""

    unanswered: list[Sent]
    rest: bytes


class Up:
    """What is kept of a side that is up: from the start of its engine until it goes down."""

    def __init__(self) -> None:
        self.confirmed = 0  # script commands
        self.unanswered: list[Sent] = []  # the oldest first
        self.sent = 0  # commands
        self.rest = b""  # what was read since the last whole reply
        self.rests: list[Rest] = []  # that after each call of `receive`


class Controller:
    """A match. `most` says how many script commands may be unanswered at a time."""

    def __init__(self, setup: Setup, most: int = MOST_UNANSWERED) -> None:
        self.setup = setup
        self.most = most
        self.game = Game()
        self.game.begin(setup.size)
        self.game.komi = setup.komi
        if setup.handicap:
            self.game.place_handicap(self.handicap_points())
        self.sides: dict[Colour, Optional[Up]] = {BLACK: None, WHITE: None}
        self.starts = {BLACK: 0, WHITE: 0}
        self.retakes: dict[int, int] = {}  # of each move number, from 1, where there were any
        # the maker of the last move, where that move is to be taken back
        self.pending: Optional[Colour] = None
        self.verdict: Optional[str] = None
        self.reported: list[Report] = []
        # what was read last: a whole reply with what was before it, or each text that may be shown
        # of what is no reply
        self.pieces: list[bytes] = []
        self.follows_another = False  # whether the same read had a reply before that

    # ---- what the tables speak of

    def handicap_points(self) -> list[Point]:
        """Returns the points of the handicap stones."""
        points = values.handicap_points(self.setup.size, self.setup.handicap)
        assert points is not None
        return points

    def script(self) -> list[str]:
        """Returns the commands that bring a new engine to the position."""
        sign = "-" if self.setup.komi < 0 else ""
        komi = values.write_half_points(abs(self.setup.komi)).decode()
        commands = [f"boardsize {self.setup.size}", f"komi {sign}{komi}", "clear_board"]
        if self.setup.handicap:
            commands.append(f"fixed_handicap {self.setup.handicap}")
        return commands + [played(move) for move in self.game.moves]

    def up(self, side: Colour) -> Up:
        """Returns what is kept of a side that is up."""
        up = self.sides[side]
        assert up is not None
        return up

    def left(self, side: Colour) -> list[str]:
        """Returns the script commands that this side, which is up, has yet to be sent."""
        up = self.up(side)
        return self.script()[up.confirmed + len(up.unanswered) :]

    def to_move(self) -> Colour:
        """Returns whose move it is: Black moves first, or White where there is a handicap."""
        first = WHITE if self.setup.handicap else BLACK
        return first if len(self.game.moves) % 2 == 0 else values.other(first)

    def is_last_of_the_other(self, side: Colour) -> bool:
        """Returns whether this side has to answer the last move, which the other side made.

        The oldest unanswered command is then the last one of the script, a play.
        """
        is_last = self.up(side).confirmed == len(self.script()) - 1
        moves = self.game.moves
        return is_last and bool(moves) and moves[-1].colour == values.other(side)

    def has_confirmed_all(self, side: Colour) -> bool:
        """Returns whether this side is up, and has confirmed the whole script."""
        return not self.is_down(side) and self.up(side).confirmed == len(self.script())

    def restarts(self, side: Colour) -> int:
        """Returns how often this side was started again."""
        return max(0, self.starts[side] - 1)

    # ---- what comes next

    def next(self) -> Next:
        """Returns what to do next: the first line that applies."""
        if self.verdict is not None:
            return Next(Action.DONE)
        lines: list[tuple[Action, Callable[[Colour], bool]]] = [
            (Action.WAIT, self.has_to_answer),
            (Action.SEND, self.has_unanswered),
            (Action.SEND, self.is_to_undo),
            (Action.START, self.is_down),
            (Action.SEND, self.has_left),
        ]
        for action, applies in lines:
            for side in SIDES:
                if applies(side):
                    return Next(action, side)
        return Next(Action.SEND, self.to_move())

    def has_unanswered(self, side: Colour) -> bool:
        """Returns whether this side has an unanswered command."""
        return not self.is_down(side) and bool(self.up(side).unanswered)

    def has_to_answer(self, side: Colour) -> bool:
        """Returns whether this side is sent nothing before it answers.

        That is so where it has as many unanswered commands as are allowed, an unanswered genmove,
        or unanswered commands and no script command left.
        """
        if not self.has_unanswered(side):
            return False
        unanswered = self.up(side).unanswered
        asked = any(sent.command.startswith("genmove") for sent in unanswered)
        return len(unanswered) >= self.most or asked or not self.left(side)

    def is_to_undo(self, side: Colour) -> bool:
        """Returns whether a move of this side is to be taken back."""
        return self.pending == side

    def is_down(self, side: Colour) -> bool:
        """Returns whether this side is down."""
        return self.sides[side] is None

    def has_left(self, side: Colour) -> bool:
        """Returns whether script commands are left for this side."""
        return bool(self.left(side))

    # ---- what is done

    def started(self, side: Colour) -> None:
        """Takes in that an engine of this side was started, or should have been."""
        self.sides[side] = Up()
        self.starts[side] += 1

    def send(self, side: Colour) -> bytes:
        """Returns the bytes of the command that this side is sent.

        That is an undo where its move is to be taken back, or its next script command, or else a
        genmove. The k-th command that an engine is sent has the id k.
        """
        up = self.up(side)
        if self.is_to_undo(side):
            command = "undo"
        else:
            command = (self.left(side) or [f"genmove {letter(side)}"])[0]
        up.sent += 1
        up.unanswered.append(Sent(up.sent, command))
        return f"{up.sent} {command}\n".encode()

    def lost(self, side: Colour) -> None:
        """Takes in that this side's engine is gone, or can't be understood any more.

        Where its move was to be taken back, that move leaves the record. Where it has used all its
        starts, it is abandoned.
        """
        if self.is_down(side):
            return
        self.sides[side] = None
        if self.verdict is None:
            if self.is_to_undo(side):
                self.take_back()
            if self.starts[side] == self.setup.most_restarts + 1:
                self.verdict = f"abandoned {side}"

    def take_back(self) -> None:
        """Takes the last move from the record."""
        self.game.undo()
        self.pending = None

    def receive(
        self, side: Colour, data: bytes, following: Callable[[], list[bytes]] = lambda: [b""]
    ) -> None:
        """Takes in what this side wrote, by one read.

        The bytes of a side that is down change nothing, and so do all bytes after a verdict.
        `following` returns what that read might have brought besides, if it had come later:
        nothing, and then what is there with the answer to one command more each time, up to those
        to all commands that were sent.
        """
        self.follows_another = False
        while self.verdict is None and not self.is_down(side):
            up = self.up(side)
            result, used = replies.first(up.rest + data)
            if result is None:
                up.rest += data
                up.rests.append(Rest(up.confirmed, up.rest))
                return
            if isinstance(result, NoReply):
                # more is shown than the bytes up to the one at fault: what was read with them too
                self.pieces = [up.rest + data + more for more in following()]
                no_status = result is NoReply.NO_STATUS
                self.report(side, why.NO_STATUS if no_status else why.OVERLONG)
                return self.lost(side)
            received = up.rest + data
            self.pieces, data = [received[:used]], received[used:]
            up.rest = b""
            self.judge(side, result)
            self.follows_another = True

    # ---- what a reply does

    def judge(self, side: Colour, reply: Reply) -> None:
        """Takes in a whole reply of a side that is up, before a verdict."""
        up = self.up(side)
        if not up.unanswered:
            self.report(side, why.UNASKED)
            return self.lost(side)
        number, command = up.unanswered[0]
        if reply.id != number:
            self.report(side, why.WRONG_ID)
            return self.lost(side)
        if command.startswith("genmove"):
            return self.judge_move(side, reply)
        if command == "undo":
            return self.judge_undo(side, reply)
        return self.judge_script(side, command, reply)

    def judge_script(self, side: Colour, command: str, reply: Reply) -> None:
        """Takes in a reply to a script command: refused, unfit, or confirmed."""
        up = self.up(side)
        has_stones = command.startswith("fixed_handicap")
        if not reply.ok and command.startswith("play"):
            self.judge_refusal(side)
        elif not reply.ok or (has_stones and not self.names_handicap(reply.text)):
            self.report(side, why.UNFIT)
            self.verdict = f"unfit {side}"
        else:
            up.unanswered.pop(0)
            up.confirmed += 1

    def judge_refusal(self, side: Colour) -> None:
        """Takes in that a play was refused.

        The last move, which the other side made, is taken back, at most three times for one number;
        where the side that made it doesn't have the whole game, it leaves the record at once.
        """
        number = len(self.game.moves)
        if not self.is_last_of_the_other(side) or self.retakes.get(number, 0) >= MOST_RETAKES:
            self.report(side, why.REFUSED_PLAY)
            return self.forfeit(side, "refused play")
        self.retakes[number] = self.retakes.get(number, 0) + 1
        self.report_retake(side, self.retakes[number])
        self.up(side).unanswered.pop(0)
        maker = values.other(side)
        if self.has_confirmed_all(maker):
            self.pending = maker
        else:
            self.game.undo()

    def judge_undo(self, side: Colour, reply: Reply) -> None:
        """Takes in a reply to an undo: the move is taken back, or the other side forfeits."""
        if not reply.ok:
            self.report(side, why.KEPT_MOVE)
            return self.forfeit(values.other(side), "refused play")
        up = self.up(side)
        up.unanswered.pop(0)
        up.confirmed -= 1
        self.take_back()

    def names_handicap(self, text: bytes) -> bool:
        """Returns whether these words are the handicap's points, each once, in any order."""
        named = [values.read_vertex(word) for word in replies.words(text)]
        points = [vertex for vertex in named if isinstance(vertex, tuple)]
        return len(points) == len(named) and sorted(points) == sorted(self.handicap_points())

    def judge_move(self, side: Colour, reply: Reply) -> None:
        """Takes in a reply to a genmove: a move, a resignation, or neither."""
        if not reply.ok:
            self.report(side, why.NO_MOVE)
            return self.forfeit(side, "no move")
        words = replies.words(reply.text)
        word = words[0] if len(words) == 1 else b""
        if word.lower() == b"resign":
            self.up(side).unanswered.pop(0)
            self.verdict = f"{winner_over(side)}+R"
            return None
        vertex = values.read_vertex(word)
        if vertex is None:
            self.report(side, why.NO_VERTEX)
            return self.forfeit(side, "no vertex")
        if not self.game.play(side, vertex):
            self.report(side, self.what_is_illegal(side, vertex))
            return self.forfeit(side, "illegal move")
        self.up(side).unanswered.pop(0)
        self.up(side).confirmed += 1
        return self.look_for_the_end()

    def look_for_the_end(self) -> None:
        """After a move, sets the verdict where the last two are passes, or the limit is reached."""
        vertices = [move.vertex for move in self.game.moves]
        if vertices[-2:] == [PASS, PASS]:
            self.verdict = self.score()
        elif len(vertices) == self.setup.most_moves:
            self.verdict = "limit"

    def score(self) -> str:
        """Returns who leads and by how much, or 0."""
        score = self.game.score()
        if score == 0:
            return "0"
        return ("B+" if score > 0 else "W+") + values.write_half_points(abs(score)).decode()

    def forfeit(self, side: Colour, cause: str) -> None:
        """Lets this side lose by what it replied. Its command still counts as unanswered."""
        self.verdict = f"{winner_over(side)}+F({cause})"

    # ---- why a side fails

    def report(self, side: Colour, cause: str) -> None:
        """Reports that a side fails by what was read last.

        Where it was sent fewer commands by then, as many answers fewer may come after what is no
        reply.
        """
        texts = []
        sent = self.up(side).unanswered
        for unanswered in [sent, *self.others_unanswered(side)]:
            is_strange = cause in (why.UNASKED, why.WRONG_ID)
            shown = (why.WRONG_ID if unanswered else why.UNASKED) if is_strange else cause
            fewer = len(sent) - len(unanswered)
            texts += [
                why.lost(unanswered, shown, piece)
                for piece in self.pieces[: max(1, len(self.pieces) - fewer)]
            ]
        self.reported.append(Report(side, texts))

    def report_retake(self, side: Colour, count: int) -> None:
        """Reports that this side has refused the last move, which is retaken.

        That is no loss. The play still counts as unanswered. The retake is reported whether or not
        an undo follows.
        """
        cause = why.retaken(count, MOST_RETAKES)
        unanswered = self.up(side).unanswered
        texts = [why.lost(unanswered, cause, piece) for piece in self.pieces]
        self.reported.append(Report(side, texts, is_loss=False))

    def others_unanswered(self, side: Colour) -> list[list[Sent]]:
        """Returns other commands that may be unanswered where this side has written its failure.

        While an engine is sent a script of more than eight commands, that is a question of time: as
        many are sent as there were replies in the read before. At the failure all of them up to the
        command that fails were sent, and those that could be sent when the reply before was read,
        unless one read had both.
        """
        confirmed, length = self.up(side).confirmed, len(self.script())
        if length - confirmed <= 1:
            return []
        least = max(self.most, confirmed + (0 if self.follows_another else 1))
        most = confirmed + self.most - (1 if self.follows_another else 0)
        counts = range(min(least, length), min(most, length) + 1)
        return [self.of_script(confirmed, sent) for sent in counts]

    def of_script(self, confirmed: int, sent: int) -> list[Sent]:
        """Returns what is unanswered of an engine that was sent and has confirmed so much."""
        return [Sent(*row) for row in enumerate(self.script(), 1)][confirmed:sent]

    def writes(self, side: Colour) -> list[Write]:
        """Returns the last write to this side, or each that may be the first that fails.

        Where the engine has ended, and is sent a script of more than eight commands, there may be a
        write after each reply; the command at which it ended was sent before.
        """
        up = self.up(side)
        length = len(self.script())
        writes = [Write(list(up.unanswered), up.rest)]
        if length > max(self.most, up.confirmed + 1):
            first = max(1, up.confirmed + 2 - self.most)
            for rest in up.rests:
                if rest.confirmed >= first:
                    sent = min(length, rest.confirmed + self.most)
                    writes.append(Write(self.of_script(rest.confirmed, sent), rest.data))
        return writes

    def what_is_illegal(self, side: Colour, vertex: Vertex) -> str:
        """Returns why this play isn't legal."""
        game = self.game
        assert vertex != PASS
        if not is_on(game.size, vertex):
            return why.OFF_THE_BOARD
        if vertex in game.board:
            return why.OCCUPIED
        is_suicide = game.is_suicide(game.put(side, vertex), side, vertex)
        return why.SUICIDE if is_suicide else why.KO

    # ---- what is printed

    def result_line(self, number: int) -> str:
        """Returns the line of a game that is over."""
        restarts = f"restarts {self.restarts(BLACK)} {self.restarts(WHITE)}"
        return f"game {number}: {self.verdict} moves {len(self.game.moves)} {restarts}"

    def record_line(self) -> str:
        """Returns the vertices of the record."""
        return " ".join(values.write_vertex(move.vertex).decode() for move in self.game.moves)


def letter(colour: Colour) -> str:
    """Returns a colour as it is written in commands."""
    return "b" if colour == BLACK else "w"


def played(move: Move) -> str:
    """Returns the command that plays a move."""
    return f"play {letter(move.colour)} {values.write_vertex(move.vertex).decode()}"


def winner_over(side: Colour) -> str:
    """Returns the letter of the colour that wins where this side loses."""
    return "W" if side == BLACK else "B"
