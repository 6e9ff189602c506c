"""What an engine is sent and what it answers, as `between` sees it: moves, times, an opening.

As long as the game follows its opening, `ID genmove COLOUR` becomes `ID play COLOUR VERTEX` for
the engine, and its success becomes `=ID VERTEX` for twogtp. So each command keeps its answer.

With a clock the engine gets commands that twogtp didn't send (timing.py). They have no numbers, and
twogtp gets nothing of their answers.

Each event is written at once, as a line of the game's notes (store/notes.py).
"""
from __future__ import annotations

import time

TYPE_CHECKING = False  # as of typing, whose import takes longer than all of this
if TYPE_CHECKING:
    from collections.abc import Callable

    from .timing import Timing

COMMENT, TAB_TO_SPACE = b"#", bytes.maketrans(b"\t", b" ")
CONTROL = bytes(code for code in range(128) if code < 32 and code not in (9, 10) or code == 127)
ANSWER_LOOKED_AT = 300  # bytes of an answer that are kept, to see what it says
ANSWER_HELD = 8192  # bytes of an answer that twogtp takes
LIST_HELD = 65536  # bytes of an answer to an own command
NOTED_AFTER = 0.2  # seconds after which a note says that a move is waited for
RESIGN = b"RESIGN"
FAILED, SUCCEEDED = b"?", b"="


def as_written(vertex: bytes) -> bytes:
    """Returns a vertex, a pass or a resignation as twogtp writes it."""
    return vertex if vertex[1:2].isdigit() else vertex.lower()


class Command:
    """A command that wasn't answered yet."""

    __slots__ = ("text", "name", "since", "used", "opening_move", "is_own", "is_noted")

    def __init__(
        self, text: bytes, name: bytes, opening_move: bytes | None, is_own: bool = False
    ) -> None:
        self.text, self.name = text, name
        self.is_own = is_own  # whether twogtp didn't send it
        self.opening_move = opening_move  # which the engine is sent in place of a genmove
        self.since = time.monotonic()
        self.used = 0.0  # what processors had worked for the engine by then, in seconds
        self.is_noted = name != b"genmove"  # whether a note says that it is waited for

    def change(self, moves: list[bytes]) -> None:
        """Changes these moves as the command does that succeeds, except for the move of a genmove
        without an opening, which isn't known."""
        if self.name == b"play":
            moves.append(self.text.split()[-1].upper())
        elif self.name == b"genmove":
            moves.append(self.opening_move or b"")
        elif self.name == b"undo" and moves:
            moves.pop()
        elif self.name in (b"clear_board", b"boardsize"):
            moves.clear()


class Conversation:
    """What twogtp and an engine of this colour write to each other, with a function for notes."""

    def __init__(
        self,
        colour: str,
        limits: tuple[float | None, float | None],
        opening: list[bytes],
        write_note: Callable[[str], None],
        timing: Timing | None = None,
    ) -> None:
        self.colour, self.opening, self.write_note = colour, opening, write_note
        self.timing = timing  # None without a clock
        # what processors have worked for the engine, in seconds; None where that isn't noted
        self.processor_seconds: Callable[[], float] | None = None
        self.limit, self.move_limit = limits  # of a genmove the second one; None for no limit
        self.began = time.monotonic()
        self.last_answer = self.began  # when the last answer ended
        self.waiting: list[Command] = []
        self.moves: list[bytes] = []
        self.unfinished_line = b""  # of twogtp
        self.answer = b""  # the beginning of the engine's answer, without control characters
        self.held: bytes | None = None  # the bytes of a success that twogtp gets in another form
        self.own_answer: bytes | None = None  # to a command that twogtp didn't send
        self.deferred = b""  # what the engine gets once it has answered that
        self.released = b""  # what it gets now
        self.at_line_start = True  # of the engine's output
        self.in_answer = False
        self.has_answered = False

    def note(self, event: str) -> None:
        """Writes a note of an event."""
        number = len(self.moves) + 1 if self.has_answered else 0
        self.write_note(f"{number} {self.colour} {event}\n")

    # ---- from twogtp to the engine

    def from_controller(self, data: bytes) -> bytes:
        """Takes bytes of twogtp, and returns what the engine gets: whole lines."""
        if data[-1:] == b"\n" and not self.unfinished_line and data.count(b"\n") == 1:
            return self.engine_line(data)
        *lines, self.unfinished_line = (self.unfinished_line + data).split(b"\n")
        return b"".join([self.engine_line(line + b"\n") for line in lines])

    def engine_line(self, line: bytes) -> bytes:
        """Returns the line that the engine gets for a line of twogtp.

        A line that is empty without its comment and control characters is no command.
        """
        text = line.split(COMMENT)[0].translate(TAB_TO_SPACE, CONTROL)
        words = text.split()
        number = words.pop(0) if words and words[0].isdigit() else b""
        name, opening_move = words[0] if words else number, None
        if not name:
            return line
        text = text.strip()
        if name == b"genmove" and self.opening:
            opening_move = self.next_of_opening(self.moves_to_come())
            if opening_move:
                sent = [number, b"play", *words[1:2], as_written(opening_move)]
                text = b" ".join(filter(None, sent))
                line = text + b"\n"
        own: list[bytes] = []
        if self.timing:
            own = self.timing.commands_before(b"play" if opening_move else name, words)
        self.waiting += [Command(each, each.split()[0], None, is_own=True) for each in own]
        # before the time of the answer begins
        used = self.processor_seconds() if self.processor_seconds and name == b"genmove" else 0.0
        self.waiting.append(Command(text, name, opening_move))
        self.waiting[-1].used = used
        return self.defer(b"".join([each + b"\n" for each in own]), line, name == b"genmove")

    def defer(self, own: bytes, line: bytes, is_genmove: bool) -> bytes:
        """Returns what the engine gets now of own commands and a line behind them: a genmove waits
        for their answers, with which its time begins."""
        if self.deferred:
            self.deferred += own + line
            return b""
        if own and is_genmove:
            self.deferred = line
            return own
        return own + line

    def take_released(self) -> bytes:
        """Returns what the engine gets now of what was deferred."""
        released, self.released = self.released, b""
        return released

    def moves_to_come(self) -> list[bytes]:
        """Returns the moves that there are once all waiting commands have succeeded."""
        moves = list(self.moves)
        for command in self.waiting:
            command.change(moves)
        return moves

    def next_of_opening(self, moves: list[bytes]) -> bytes | None:
        """Returns the move of the opening after these; None where it has other moves, or ends."""
        count = len(moves)
        follows = count < len(self.opening) and moves == self.opening[:count]
        return self.opening[count] if follows else None

    # ---- from the engine to twogtp

    def from_engine(self, data: bytes) -> bytes:
        """Takes bytes of the engine, and returns what twogtp gets. An empty line ends an answer."""
        *lines, rest = data.split(b"\n")
        passed = [self.engine_output(line + b"\n") for line in lines]
        if rest:
            passed.append(self.engine_output(rest))
        return b"".join(passed)

    def engine_output(self, line: bytes) -> bytes:
        """Takes a line of the engine, or a part of one, and returns what twogtp gets."""
        bare = line.translate(TAB_TO_SPACE, CONTROL)
        if not self.in_answer:
            bare = bare.lstrip(b" \n")
            if not bare:
                return line
            self.begin_answer(bare)
        is_end = bare == b"\n" and self.at_line_start
        if bare:
            self.at_line_start = bare.endswith(b"\n")
        if len(self.answer) < ANSWER_LOOKED_AT:
            self.answer += bare
        if self.own_answer is not None:
            if len(self.own_answer) < LIST_HELD:
                self.own_answer += bare
            line = b""
        if self.held is not None:
            self.held += line
            line = b""
            if len(self.held) > ANSWER_HELD:
                line, self.held = self.held, None
        if is_end:
            self.in_answer = False
            if self.waiting:
                return self.end_answer(self.waiting.pop(0)) or line
        return line

    def begin_answer(self, bare: bytes) -> None:
        """Begins an answer with these bytes, which is held where it ends a move of the opening."""
        self.in_answer, self.answer = True, b""
        is_opening = self.waiting and self.waiting[0].opening_move
        self.held = b"" if bare[:1] == SUCCEEDED and is_opening else None
        self.own_answer = b"" if self.waiting and self.waiting[0].is_own else None

    def end_answer(self, command: Command) -> bytes | None:
        """Notes the answer to a command. Returns what twogtp gets in place of what was written."""
        now = time.monotonic()
        seconds, self.last_answer = now - self.asked_at(command), now
        if not self.has_answered and self.answer[:1] in (SUCCEEDED, FAILED):
            self.write_note(f"0 {self.colour} started {now - self.began:.3f}\n")
            self.has_answered = True
        is_success = self.answer[:1] == SUCCEEDED
        if self.timing and self.own_answer is not None:
            self.timing.take_answer(command.name, self.own_answer[1:] if is_success else b"")
            if not self.waiting or not self.waiting[0].is_own:
                self.released, self.deferred = self.deferred, b""
            return None
        if self.held is not None and command.opening_move:
            return self.end_opening_move(command.opening_move)
        if command.name == b"genmove" and not command.opening_move:
            self.end_genmove(command, seconds, is_success)
        elif is_success:
            self.end_other(command)
        elif self.answer[:1] == FAILED and self.plays_opening(command):
            self.note("refuses the opening")
        return None

    def end_opening_move(self, vertex: bytes) -> bytes:
        """Notes a move of the opening, and returns the answer to the genmove."""
        self.note(f"{as_written(vertex).decode()} opening")
        self.moves.append(vertex)
        text = self.answer[1:]
        number = text[: len(text) - len(text.lstrip(b"0123456789"))]
        return b"=%b %b\n\n" % (number, as_written(vertex))

    def plays_opening(self, command: Command) -> bool:
        """Returns whether a command plays the next move of the opening."""
        moves = list(self.moves)
        command.change(moves)
        return len(moves) > len(self.moves) and moves[-1] == self.next_of_opening(self.moves)

    def end_genmove(self, command: Command, seconds: float, is_success: bool) -> None:
        """Notes the answer to a genmove."""
        words = self.answer[1:].split()
        vertex = b" ".join(words[1:] if self.answer[1:2].isdigit() else words).upper()
        is_vertex = is_success and vertex.isalnum() and len(vertex) <= len(RESIGN)
        failure = "no-vertex" if is_success else "failed"
        event = as_written(vertex).decode() if is_vertex else failure
        self.note(f"{event} {seconds:.3f}{self.processor_note(command)}")
        if self.timing:
            self.timing.charge(seconds, is_move=is_vertex)
        if is_vertex and vertex != RESIGN:
            self.moves.append(vertex)

    def end_other(self, command: Command) -> None:
        """Notes the success of a command that isn't a genmove."""
        is_undo = command.name == b"undo" and len(self.moves) > 0
        command.change(self.moves)
        if is_undo:
            self.note("undone")

    # ---- time

    def processor_note(self, command: Command) -> str:
        """Returns what a note says of the processor in a genmove; nothing of other commands."""
        if not self.processor_seconds or command.name != b"genmove" or command.opening_move:
            return ""
        return f" cpu {max(0.0, self.processor_seconds() - command.used):.2f}"

    def asked_at(self, command: Command) -> float:
        """Returns when the time of a command's answer began: at the command, or the end of the
        answer before."""
        return max(command.since, self.last_answer)

    def seconds_left(self) -> float | None:
        """Returns how long the next answer may take; None where none is awaited, or no limit is
        set."""
        if not self.waiting:
            return None
        limit, _ = self.limit_of_answer()
        return None if limit is None else self.asked_at(self.waiting[0]) + limit - time.monotonic()

    def limit_of_answer(self) -> tuple[float | None, bool]:
        """Returns how many seconds the awaited answer may take, if that is limited, and whether the
        clock says so."""
        command = self.waiting[0]
        if command.name != b"genmove" or command.opening_move:
            return self.limit, False
        left = self.timing.seconds_left() if self.timing else None
        if left is None or self.move_limit is not None and self.move_limit < left:
            return self.move_limit, False
        return left, True

    def late_event(self) -> str:
        """Returns what the notes say of an answer that comes too late."""
        _, is_clock = self.limit_of_answer()
        return "out-of-time" if is_clock else "late"

    def seconds_to_wait(self) -> float | None:
        """Returns for how long nothing is to be done here; None for any time.

        Where it is time for that, a note says that a move is waited for.
        """
        left = self.seconds_left()
        if not self.waiting or self.waiting[0].is_noted:
            return left
        to_note = self.asked_at(self.waiting[0]) + NOTED_AFTER - time.monotonic()
        if to_note <= 0:
            self.waiting[0].is_noted = True
            self.note("thinks")
            return left
        return to_note if left is None else min(to_note, left)

    def note_no_answer(self, event: str, ending: str = "") -> None:
        """Notes that no answer follows: it is `late`, the engine `ended`, or twogtp did, which
        `waited`."""
        command = self.waiting[0] if self.waiting else None
        seconds = time.monotonic() - self.asked_at(command) if command else 0
        text = command.text[:ANSWER_LOOKED_AT].decode("latin-1") if command else "nothing was asked"
        used = self.processor_note(command) if command and event in ("late", "out-of-time") else ""
        self.note(f"{event} {seconds:.3f}{used}: {text}{ending and ': '}{ending}")
