"""The ids of replies."""
import struct

from tests.engines.wrong.bug import Bug, instead_of, on, shown_by


@instead_of("head", on(5, "b C3", "7 play w C3"), "?")
def no_id_at_a_failure(self, right, good, number, text):
    """A failure is answered without its id."""
    return right(good, number if good else None, text)


@instead_of("head", ["7 komi 0"], "=", plain=False)
def no_id_without_a_text(self, right, good, number, text):
    """A reply without a text has no id."""
    return right(good, number if text else None, text)


@instead_of("head", ["0 name"], "= plain")
def id_of_zero_is_none(self, right, good, number, text):
    """The id 0 is left out: the author asks whether the id is true."""
    return right(good, number or None, text)


@instead_of("head", ["256 name"], "= plain")
def ids_are_bytes(self, right, good, number, text):
    """An id is kept in a byte, so 256 is 0."""
    return right(good, None if number is None else number % 256, text)


@instead_of("head", ["1000 name"], "= plain")
def ids_have_three_digits(self, right, good, number, text):
    """An id has room for three digits, and loses its last ones."""
    return right(good, None if number is None else int(str(number)[:3]), text)


@instead_of("split_id", ["10 name"], "= plain")
def ids_of_one_digit(self, right, words):
    """An id is looked for in the line's first character alone, so 10 is an unknown command."""
    return (None, words) if len(words[0]) > 1 else right(words)


@instead_of("head", ["1 name"], "= plain", plain=False)
def id_behind_a_space(self, right, good, number, text):
    """There is a space between the mark and the id."""
    return ("= " if good else "? ") + right(good, number, text)[1:]


@instead_of("head", ["1000 name"], "= plain")
def ids_have_commas(self, right, good, number, text):
    """An id is written with a comma at the thousands, as some libraries write numbers."""
    return right(good, None if number is None else f"{number:,}", text)


@shown_by(["1 name", "2 version"], "= 1", plain=False)
class IdOfTheCommandBefore(Bug):
    """A reply has the id of the command before: the engine reads an id once the reply is
    written."""

    known = None

    def reply(self, good, number, text):
        shown = number if self.known is None else self.known
        self.known = number
        return super().reply(good, shown, text)


@instead_of("answer", on(5, "", "7 genmove b"), "but", plain=False)
def no_id_at_a_genmove(self, right, line):
    """The reply to a `genmove` has no id: another function writes it."""
    whole = right(line)
    chosen = whole.startswith("=") and self.command_of(line) == "genmove"
    return "=" + whole.lstrip("=0123456789") if chosen else whole


@shown_by(["2 name"], "= plain")
class IdsAreItsOwnCount(Bug):
    """Replies are numbered by the engine's own count of commands, which is right while ids go up by
    one from 1."""

    count = 0

    def head(self, good, number, text):
        self.count += 1
        return super().head(good, None if number is None else self.count, text)


@shown_by(["! 1 no_such_command", "2 name"], "= plain")
class IdsCountSuccesses(Bug):
    """Replies are numbered by the engine's own count, and a command that fails isn't counted."""

    count = 0

    def head(self, good, number, text):
        self.count += good
        return super().head(good, None if number is None else self.count + (not good), text)


@instead_of("reply", ["4 list_commands"], "= " + "\n".join(Bug.names))
def id_at_multiple_lines(self, right, good, number, text):
    """The id is before each line of a reply with several lines."""
    return right(good, number, text if number is None else text.replace("\n", f"\n{number} "))


@shown_by(["5 name", "version"], "= 1")
class IdStays(Bug):
    """A line without an id is answered with the id of the last line that had one."""

    last = None

    def head(self, good, number, text):
        self.last = self.last if number is None else number
        return super().head(good, self.last, text)


@instead_of("head", ["16777217 name"], "= plain")
def ids_are_floats(self, right, good, number, text):
    """An id is a number with 24 bits and an exponent, so a large odd one comes back as an even
    one."""
    if number is not None:
        number = int(struct.unpack("f", struct.pack("f", number))[0])
    return right(good, number, text)


NAMES = [
    "\n".join(f"{number} name" for number in range(first, first + 512))
    for first in range(0, 32768, 512)
]


@instead_of("head", [*NAMES, "32768 name"], "= plain")
def ids_are_shorts(self, right, good, number, text):
    """An id has sixteen bits and a sign, so the one after 32,767 is written with a minus."""
    return right(good, number if number is None else (number + 32768) % 65536 - 32768, text)


@shown_by(["1 name\n2 version"], "= 1")
class IdOfTheLastLineOfARead(Bug):
    """The lines of a read are parsed before the first one is executed, so all replies have the last
    one's id."""

    last = None

    def lines(self, data):
        lines = super().lines(data)
        for words in filter(None, map(self.words, lines)):
            self.last = self.split_id(words)[0]
        return lines

    def head(self, good, number, text):
        return super().head(good, self.last, text)


@instead_of("answer", on(5, "", "7 undo"), "?")
def failed_undo_has_no_id(self, right, line):
    """Each command prints its own failure, and the one of `undo` has no id."""
    fails = self.command_of(line) == "undo" and not self.moves
    return "? cannot undo\n\n" if fails else right(line)
