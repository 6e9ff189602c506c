"""Engines: the library does all but the choice of a move."""
from __future__ import annotations

import contextlib
import ctypes
import fcntl
import os
import sys
from enum import IntEnum
from typing import Any, Callable, Dict, Iterator, List, Optional, Tuple, TypeVar, Union

from . import _declared
from ._objects import Bytes, LibraryObject, ascii_of, bytes_of
from ._library import library, text_of
from ._numbers import Cause
from ._refused import Refused, check, or_none, shown
from .games import Game
from .lines import CommandLine, bad_reply, words_of
from .values import AnyChoice, Colour, KoRule, choice_number, rule_number, shown_vertex

PIECE = 4096  # bytes that are read at a time, at most
Method = TypeVar("Method", bound=Callable[..., Any])


class Event(IntEnum):
    """The result of feeding a sans-IO engine."""

    MORE = _declared.MORE  # All bytes were used: read more.
    BLACK = _declared.BLACK  # Black's move is waited for: call `choose`.
    WHITE = _declared.WHITE  # White's move is waited for: call `choose`.
    # A command that isn't in the protocol's table: see `line`; call `answer` or `decline`.
    OTHER = _declared.OTHER
    REPLY = _declared.REPLY  # A line was answered, also a quit: write `reply`.
    ENDED = _declared.ENDED  # A quit was answered before: stop.


class Steps(LibraryObject):
    """A sans-IO engine, which takes bytes and returns replies, or asks for a colour's move.

    A call that is rejected raises Refused, and the engine is unchanged. While the engine waits for
    a choice or an answer, `feed` uses no byte and returns the same event.

    >>> steps = Steps()
    >>> steps.feed(b"1 genmove b\\n2 name\\n")
    (12, <Event.BLACK: 1>)
    >>> steps.choose("D4")
    >>> steps.reply
    b'=1 D4\\n\\n'
    >>> steps.feed(b"2 name\\n"), steps.reply
    ((7, <Event.REPLY: 4>), b'=2 stepgo\\n\\n')
    """

    __slots__ = ()
    _kind = "engine"
    _handle_type = _declared.EngineHandle

    def __init__(self, rule: KoRule = KoRule.SIMPLE) -> None:
        super().__init__()
        self.begin(rule)

    def begin(self, rule: KoRule = KoRule.SIMPLE) -> None:
        """Resets the engine. Errors: BAD_RULE."""
        check(library.vintsaky_engine_begin(self._pointer(), rule_number(rule)))

    def feed(self, data: Bytes) -> Tuple[int, Event]:
        """Takes the next chunk, up to the end of its first line that has a word, or all of it.

        Returns how many bytes were used, and the result.
        """
        data, used = bytes_of(data), ctypes.c_size_t()
        event = library.vintsaky_engine_feed(self._pointer(), data, len(data), ctypes.byref(used))
        return used.value, Event(event)

    @property
    def wait(self) -> Event:
        """What the engine waits for: BLACK, WHITE or OTHER; MORE if it waits for nothing."""
        return Event(library.vintsaky_engine_wait(self._pointer()))

    @property
    def ended(self) -> bool:
        """Whether the session has ended, by a quit."""
        ended: bool = library.vintsaky_engine_ended(self._pointer())
        return ended

    @property
    def reply(self) -> bytes:
        """The last reply: empty before the first."""
        return text_of(library.vintsaky_engine_reply, self._pointer())

    @property
    def line(self) -> Optional[CommandLine]:
        """The command line for which the engine waits for a choice or an answer, or None."""
        pointer, id = self._pointer(), ctypes.c_uint32()
        if self.wait is Event.MORE:
            return None
        cause = library.vintsaky_engine_id(pointer, ctypes.byref(id))
        words = words_of(library.vintsaky_engine_word, pointer)
        return CommandLine(or_none(cause, Cause.NO_ID, id), words)

    @property
    def game(self) -> Game:
        """A copy of the engine's game."""
        game = Game()
        library.vintsaky_engine_copy_game(self._pointer(), game._pointer())
        return game

    def choose(self, choice: AnyChoice) -> None:
        """Supplies the choice that the engine waits for: a vertex, RESIGN, or the text of either.

        Errors: BAD_VERTEX, NOT_ASKED, OFF_BOARD, OCCUPIED, SUICIDE or KO; then the engine still
        waits for the choice.
        """
        number = choice_number(choice)
        cause = library.vintsaky_engine_choose(self._pointer(), number)
        if cause:
            raise Refused(Cause(cause), f"choose {shown_vertex(number)}")

    def answer(self, text: Union[str, bytes] = "", ok: bool = True) -> None:
        """Answers a command that isn't in the protocol's table: by a success, or by a failure.

        Errors: NOT_ASKED, or BAD_TEXT if the text isn't allowed in a reply.
        """
        data = ascii_of(text, "text")
        cause = library.vintsaky_engine_answer(self._pointer(), int(bool(ok)), data, len(data))
        if cause == Cause.BAD_TEXT:
            raise bad_reply(text)
        check(cause, f"answer {shown(text)}")

    def decline(self) -> None:
        """Answers an unknown command by `unknown command`. Errors: NOT_ASKED."""
        check(library.vintsaky_engine_decline(self._pointer()), "decline")

    def set_name(self, name: Union[str, bytes]) -> None:
        """Sets the answer to `name`.

        Errors: BAD_TEXT if it has more than 200 bytes, or isn't allowed in a reply.
        """
        data = ascii_of(name, "name")
        if library.vintsaky_engine_set_name(self._pointer(), data, len(data)):
            raise bad_reply(name, "name", 200)

    def set_version(self, version: Union[str, bytes]) -> None:
        """Sets the answer to `version`. Errors: those of `set_name`."""
        data = ascii_of(version, "version")
        if library.vintsaky_engine_set_version(self._pointer(), data, len(data)):
            raise bad_reply(version, "version", 200)

    def add_command(self, name: Union[str, bytes]) -> None:
        """Adds a custom command.

        Errors: BAD_LENGTH, BAD_BYTE, ONLY_DIGITS, IN_TABLE, ADDED_BEFORE or TOO_MANY.
        """
        data = ascii_of(name, "name")
        check(
            library.vintsaky_engine_add_command(self._pointer(), data, len(data)),
            f"add_command {shown(name)}",
        )


class Failure(Exception):
    """Raised by a custom command that fails: its reply is a failure with this text."""


def command(name: str) -> Callable[[Method], Method]:
    """Marks a method of an Engine as the answer to a custom command of this name.

    The method gets the arguments after the name, a list of str, and returns the text of the reply,
    or None for an empty one. If it raises Failure, the reply is a failure with that text. No custom
    command changes the game.

    The text may have up to 2,000 bytes, each a newline or one of 32 to 126, without two newlines in
    a row, and without a space or newline at its beginning or end. For any other value the reply is
    a failure, a line on standard error names the command and says what is wrong, and the engine
    continues. Other exceptions come out of `serve`.

    Errors: TypeError if the name is no str, as after `@command` without a name.
    """
    if not isinstance(name, str):
        raise TypeError(f'name: {shown(name)} is no str; a command has a name, as @command("NAME")')

    def marked(method: Method) -> Method:
        setattr(method, "gtp_command", name)
        return method

    return marked


class Engine:
    """An engine of your own: a class that chooses the moves.

    `name` and `version` are its answers to these commands, at most 200 bytes each, and `rule` is
    its ko rule. A class or an object sets them before it serves.

    >>> import io
    >>> from vintsaky import RESIGN
    >>> class Resigns(Engine):
    ...     name = "resigns"
    ...     def choose(self, game, colour):
    ...         return RESIGN
    ...     @command("mood")
    ...     def say_mood(self, words):
    ...         return "gloomy"
    >>> output = io.BytesIO()
    >>> Resigns().serve(io.BytesIO(b"name\\n2 genmove w\\nmood\\nquit\\n"), output)
    >>> output.getvalue()
    b'= resigns\\n\\n=2 resign\\n\\n= gloomy\\n\\n=\\n\\n'
    """

    name: str = "stepgo"
    version: str = "1.0"
    rule: KoRule = KoRule.SIMPLE
    _steps: Optional[Steps] = None

    def choose(self, game: Game, colour: Colour) -> AnyChoice:
        """Returns what the engine plays: a legal Point, PASS or RESIGN, or the text of one.

        The game is a copy, on which the method may play as it likes. When its record has 2,000
        moves, `play` raises Refused with FULL.

        An exception that it raises, or that its choice causes, comes out of `serve`, and the
        genmove has no reply.
        """
        raise NotImplementedError(f"{type(self).__name__} has no method choose(self, game, colour)")

    @property
    def game(self) -> Game:
        """A copy of the current game. Errors: RuntimeError if the engine doesn't serve."""
        if self._steps is None:
            raise RuntimeError(f"{type(self).__name__} doesn't serve")
        return self._steps.game

    def serve(self, source: Any = None, sink: Any = None) -> None:
        """Reads commands from `source` and writes the replies to `sink`, up to a quit or the end.

        Both are binary files. Each chunk is read as it comes, and each reply is flushed.

        By default they are standard input and standard output. While the engine serves, nothing
        else uses these: what `print` or a process that the engine starts writes to standard output
        goes to standard error, and anything else that reads standard input finds it empty.

        Errors: what `choose` or a custom command raises, except Failure; Refused or TypeError for a
        choice that isn't allowed; and what the files raise. Then the current line has no reply;
        earlier lines have theirs. A name or a custom command that isn't allowed raises a ValueError
        at once.
        """
        with contextlib.ExitStack() as stack:
            if source is None or sink is None:
                standard = stack.enter_context(standard_streams())
                source = standard[0] if source is None else source
                sink = standard[1] if sink is None else sink
            self._steps = self._new_steps()
            try:
                self._answer_all(self._steps, source, sink)
            finally:
                self._steps = None

    def _new_steps(self) -> Steps:
        """Returns a sans-IO engine of this name and version, with the custom commands."""
        steps = Steps(self.rule)
        steps.set_name(self.name)
        steps.set_version(self.version)
        for name in self._commands():
            try:
                steps.add_command(name)
            except Refused as refused:
                raise Refused(refused.cause, f"custom command {shown(name)}") from None
        return steps

    def _commands(self) -> Dict[str, str]:
        """Returns the method's name for each custom command, those of a base class first."""
        found: Dict[str, str] = {}
        for kind in reversed(type(self).__mro__):
            for attribute, value in vars(kind).items():
                name = getattr(value, "gtp_command", None)
                if name is not None:
                    found[name] = attribute
        return found

    def _answer_all(self, steps: Steps, source: Any, sink: Any) -> None:
        """Reads and answers, until the session or the input ends."""
        commands = self._commands()
        while data := read_some(source):
            while data:
                used, event = steps.feed(data)
                data = data[used:]
                if event in (Event.BLACK, Event.WHITE):
                    steps.choose(self.choose(steps.game, Colour(event)))
                elif event is Event.OTHER:
                    self._answer_other(steps, commands)
                if event is not Event.MORE:
                    write_whole(sink, steps.reply)
                if steps.ended:
                    return

    def _answer_other(self, steps: Steps, commands: Dict[str, str]) -> None:
        """Answers a command that isn't the library's: by a custom command, or as unknown."""
        line = steps.line
        words: List[str] = list(line.words) if line else []
        if not words or words[0] not in commands:
            steps.decline()
            return
        text, ok = self._answer_of(commands[words[0]], words[1:])
        try:
            steps.answer(text, ok)
        except (TypeError, ValueError) as problem:
            print_error(
                f"{type(self).__name__}: the command {words[0]}: its answer is wrong: {problem}"
            )
            steps.answer("the answer is wrong", ok=False)

    def _answer_of(self, method: str, words: List[str]) -> Tuple[Any, bool]:
        """Returns what a custom command answers by its method, and whether that is a success."""
        try:
            text = getattr(self, method)(words)
        except Failure as failure:
            return str(failure), False
        return "" if text is None else text, True


def print_error(line: str) -> None:
    """Writes a line to standard error, if that accepts one."""
    with contextlib.suppress(OSError, ValueError):
        if sys.stderr is not None:
            print(line, file=sys.stderr, flush=True)


def read_some(source: Any) -> bytes:
    """Returns the next bytes as they come; none at the end of the input."""
    data: Optional[bytes] = getattr(source, "read1", source.read)(PIECE)
    if data is None:
        raise BlockingIOError("the input doesn't block, and has nothing to read")
    return data


def write_whole(sink: Any, data: bytes) -> None:
    """Writes all the bytes, and flushes them."""
    left = memoryview(data)
    while left:
        count = sink.write(left)
        if count is None:
            raise BlockingIOError("the output doesn't block, and takes no bytes")
        left = left[count:]
    sink.flush()


@contextlib.contextmanager
def standard_streams() -> Iterator[Tuple[Any, Any]]:
    """Standard input and output as files of their own.

    While they are open, standard output is standard error, and standard input is empty. What
    `print` wrote and didn't flush goes to standard error too.
    """
    with contextlib.ExitStack() as stack:
        source, sink = (
            stack.enter_context(own_stream(number, mode)) for number, mode in ((0, "rb"), (1, "wb"))
        )
        stack.callback(os.dup2, source.fileno(), 0)
        stack.callback(os.dup2, sink.fileno(), 1)
        stack.callback(flush_standard_output, sys.stdout)
        with open(os.devnull, "r+b", buffering=0) as empty:
            os.dup2(empty.fileno(), 0)
            os.dup2(empty.fileno() if sys.stderr is None else 2, 1)
        flush_standard_output(sys.stdout)
        stack.enter_context(contextlib.redirect_stdout(sys.stderr))
        yield source, sink


def own_stream(number: int, mode: str) -> Any:
    """Returns a standard stream as another file, which no process that is started inherits."""
    return os.fdopen(fcntl.fcntl(number, fcntl.F_DUPFD_CLOEXEC, 3), mode, buffering=0)


def flush_standard_output(output: Any) -> None:
    """Flushes what was written to it, if there is one."""
    if output is not None:
        output.flush()
