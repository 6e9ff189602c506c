"""Readers of command lines and replies, which take bytes in any chunks, and writers of both."""
from __future__ import annotations

import ctypes
from enum import IntEnum
from typing import Any, Callable, Dict, List, NamedTuple, Optional, Tuple, Union

from . import _declared
from ._objects import Bytes, LibraryObject, ascii_of, bytes_of, integer, int_in_range
from ._library import library, text_of
from ._numbers import Cause
from ._refused import Refused, check, or_none, shown
from .values import colour_number, half_points, size_number, vertex_number, written

MOST_INT = 2**31 - 1


class LineEvent(IntEnum):
    """The result of feeding a reader of command lines, if it isn't 0."""

    LINE = _declared.LINE
    TOO_LONG = _declared.TOO_LONG


class ReplyEvent(IntEnum):
    """The result of feeding a reader of replies, if it isn't 0: a reply, or why there is none."""

    READ = _declared.READ
    NO_REPLY = _declared.NO_REPLY
    LONG_REPLY = _declared.LONG_REPLY


class Command(IntEnum):
    """The commands that `write_command` writes."""

    BOARDSIZE = _declared.BOARDSIZE
    KOMI = _declared.KOMI
    CLEAR_BOARD = _declared.CLEAR_BOARD
    FIXED_HANDICAP = _declared.FIXED_HANDICAP
    PLAY = _declared.PLAY
    GENMOVE = _declared.GENMOVE
    UNDO = _declared.UNDO
    QUIT = _declared.QUIT


class CommandLine(NamedTuple):
    """A command line: its id, if it has one, and its words, the command's name first.

    If a line is too long, only `too_long` is set. Bytes of a word that aren't UTF-8 are kept so
    that `os.fsencode` gives them back.
    """

    id: Optional[int]
    words: Tuple[str, ...]
    too_long: bool = False


class Reply(NamedTuple):
    """A reply: whether it is a success, its id, if it has one, and its text as it was."""

    ok: bool
    id: Optional[int]
    text: bytes


def words_of(call: Any, pointer: Any) -> Tuple[str, ...]:
    """Returns the words that this call writes, one by one."""
    words: List[str] = []
    size = 1024  # a line has at most 1,000 bytes
    text, count = ctypes.create_string_buffer(size), ctypes.c_size_t()
    while True:
        cause = call(pointer, len(words), text, size, ctypes.byref(count))
        if cause == Cause.NO_WORD:
            return tuple(words)
        check(cause)
        words.append(text.raw[: count.value].decode("utf-8", "surrogateescape"))


class CommandLines(LibraryObject):
    """A reader of command lines.

    >>> lines = CommandLines()
    >>> lines.feed(b"1 genm"), lines.feed(b"ove  b # a comment")
    ([], [])
    >>> lines.feed(b"\\n")
    [CommandLine(id=1, words=('genmove', 'b'), too_long=False)]
    """

    __slots__ = ()
    _kind = "lines"
    _handle_type = _declared.LinesHandle

    def feed(self, data: Bytes) -> List[CommandLine]:
        """Takes the next chunk. Returns the lines that it ends, in order."""
        data, used = bytes_of(data), ctypes.c_size_t()
        lines: List[CommandLine] = []
        while data:
            event = library.vintsaky_lines_feed(
                self._pointer(), data, len(data), ctypes.byref(used)
            )
            data = data[used.value :]
            if event == LineEvent.LINE:
                lines.append(self._line())
            elif event == LineEvent.TOO_LONG:
                lines.append(CommandLine(None, (), True))
        return lines

    def _line(self) -> CommandLine:
        """Returns the line that was read last."""
        pointer, id = self._pointer(), ctypes.c_uint32()
        cause = library.vintsaky_lines_id(pointer, ctypes.byref(id))
        words = words_of(library.vintsaky_lines_word, pointer)
        return CommandLine(or_none(cause, Cause.NO_ID, id), words)


class Replies(LibraryObject):
    """A reader of replies.

    >>> replies = Replies()
    >>> replies.feed(b"=7 D4\\n\\n? no")
    [Reply(ok=True, id=7, text=b'D4')]
    >>> replies.feed(b"\\n\\nhello"), replies.fault
    ([Reply(ok=False, id=None, text=b'no')], <ReplyEvent.NO_REPLY: 2>)
    """

    __slots__ = ("_fault",)
    _kind = "replies"
    _handle_type = _declared.RepliesHandle

    def __init__(self) -> None:
        super().__init__()
        self._fault: Optional[ReplyEvent] = None

    @property
    def fault(self) -> Optional[ReplyEvent]:
        """NO_REPLY or LONG_REPLY after such bytes, else None. After a fault nothing is read."""
        return self._fault

    def feed(self, data: Bytes) -> List[Reply]:
        """Takes the next chunk. Returns the replies that it ends, in order, up to a fault."""
        data, used = bytes_of(data), ctypes.c_size_t()
        replies: List[Reply] = []
        while data and self._fault is None:
            event = library.vintsaky_replies_feed(
                self._pointer(), data, len(data), ctypes.byref(used)
            )
            data = data[used.value :]
            if event == ReplyEvent.READ:
                replies.append(self._reply())
            elif event:
                self._fault = ReplyEvent(event)
        return replies

    def _reply(self) -> Reply:
        """Returns the reply that was read last."""
        pointer, id = self._pointer(), ctypes.c_uint32()
        cause = library.vintsaky_replies_id(pointer, ctypes.byref(id))
        is_ok: bool = library.vintsaky_replies_ok(pointer)
        text = text_of(library.vintsaky_replies_text, pointer)
        return Reply(is_ok, or_none(cause, Cause.NO_ID, id), text)


def id_number(id: Optional[int]) -> int:
    """Returns the number of an id: -1 for none. Errors: BAD_ID."""
    return -1 if id is None else int_in_range(id, "id", 0, MOST_INT, Cause.BAD_ID)


def command_number(command: int) -> Command:
    """Returns the command of a number. Errors: BAD_COMMAND."""
    number = integer(command, "command", "no Command")
    if number not in list(Command):
        raise Refused(Cause.BAD_COMMAND, "command", f"{shown(command)} is no Command")
    return Command(number)


def stones_number(stones: int) -> int:
    """Returns the number of stones of a handicap. Errors: BAD_HANDICAP."""
    return int_in_range(stones, "stones", 0, MOST_INT, Cause.BAD_HANDICAP)


TAKEN = {
    Command.BOARDSIZE: "a size",
    Command.KOMI: "a komi",
    Command.FIXED_HANDICAP: "a number of stones",
    Command.PLAY: "a colour and a vertex",
    Command.GENMOVE: "a colour",
}


def arguments_of(kind: Command, arguments: Tuple[Any, ...]) -> Tuple[int, int]:
    """Returns the two numbers of a command's arguments: 0 for each that it doesn't have."""
    taken = TAKEN.get(kind, "none")
    if len(arguments) != (0 if taken == "none" else taken.count(" and ") + 1):
        given = "1 argument is" if len(arguments) == 1 else f"{len(arguments)} arguments are"
        raise TypeError(f"{kind.name}: {given} given; it takes {taken}")
    if kind is Command.PLAY:
        return colour_number(arguments[0]), vertex_number(arguments[1])
    numbers: Dict[Command, Callable[[Any], int]] = {
        Command.BOARDSIZE: size_number,
        Command.KOMI: half_points,
        Command.FIXED_HANDICAP: stones_number,
        Command.GENMOVE: colour_number,
    }
    return (numbers[kind](arguments[0]) if arguments else 0), 0


def write_command(command: Command, *arguments: Any, id: Optional[int] = None) -> bytes:
    """Returns the line of a command, with its newline.

    Its arguments are the size of BOARDSIZE, the komi of KOMI, the number of stones of
    FIXED_HANDICAP, the colour and the vertex of PLAY, and the colour of GENMOVE. Errors: BAD_ID,
    BAD_COMMAND, BAD_SIZE, BAD_KOMI, BAD_HANDICAP, BAD_COLOUR or BAD_VERTEX.

    >>> write_command(Command.PLAY, "b", "D4", id=5)
    b'5 play b D4\\n'
    """
    number, kind = id_number(id), command_number(command)
    numbers = arguments_of(kind, arguments)
    return written(library.vintsaky_write_command, number, kind, *numbers).encode("ascii")


def bad_reply(text: Union[str, bytes], what: str = "text", most: int = 2000) -> Refused:
    """Returns the error for a text that isn't allowed in a reply, or is too long."""
    wanted = (
        f"a reply's text has at most {most} bytes, each a newline or 32 to 126, no empty line, and "
        "no space or newline at its ends"
    )
    return Refused(Cause.BAD_TEXT, what, f"{shown(text)} may be in no reply; {wanted}")


def write_reply(text: Union[str, bytes] = "", ok: bool = True, id: Optional[int] = None) -> bytes:
    """Returns a reply: a success, or a failure.

    Errors: BAD_ID, or BAD_TEXT if the text isn't allowed in a reply.

    >>> write_reply("D4", id=7), write_reply("no", ok=False)
    (b'=7 D4\\n\\n', b'? no\\n\\n')
    """
    number, data = id_number(id), ascii_of(text, "text")
    try:
        reply = written(library.vintsaky_write_reply, number, int(bool(ok)), data, len(data))
    except Refused:
        raise bad_reply(text) from None
    return reply.encode("ascii")
