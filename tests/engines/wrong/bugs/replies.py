"""The form of replies."""
import sys

from tests.engines.wrong.bug import Bug, instead_of, on, shown_by
from tests.references.engine.engine import Failure
from tests.references.engine.values import PASS


@instead_of("reply", ["1 name"], "= plain", plain=False, waits=True)
def one_newline(self, right, good, number, text):
    """A reply ends with one newline in place of two."""
    return right(good, number, text)[:-1]


@instead_of("head", on(5, "b C3", "play w C3"), "?")
def failures_are_successes(self, right, good, number, text):
    """A command that fails is answered by `=` and the error's text."""
    return right(True, number, text)


@instead_of("head", on(5, "b C3", "play w C3"), "?")
def failures_have_an_exclamation_mark(self, right, good, number, text):
    """A failure begins with an exclamation mark."""
    return right(good, number, text).replace("?", "!")


@instead_of("answer", on(5, "", "1 genmove b"), "but", plain=False)
def note_before_a_genmove(self, right, line):
    """A line for the author is on standard output before the reply to a `genmove`."""
    return ("playouts: 1000\n" if self.command_of(line) == "genmove" else "") + right(line)


@instead_of("reply", ["1 name"], "= plain", plain=False)
def prompt(self, right, good, number, text):
    """Each reply has a prompt in front of it."""
    return "GTP> " + right(good, number, text)


@instead_of("answer", ["1 name"], "= plain", plain=False)
def echo(self, right, line):
    """Each line is written back before its reply, as a library for typed lines does."""
    return line + "\n" + right(line)


@instead_of("answer", ["1 version"], "= 1")
def version_without_a_mark(self, right, line):
    """`version` is printed as it is, without the mark and the id."""
    return "1\n\n" if self.command_of(line) == "version" else right(line)


@instead_of("refuse", on(5, "b C3", "play w C3"), "?")
def ends_at_a_refused_play(self, right, colour, point):
    """The program ends at an illegal play: an exception that nobody catches."""
    return sys.exit(1)


@instead_of("do_known_command", ["1 known_command play"], "= true")
def known_is_yes(self, right, arguments):
    """`known_command` answers `yes` or `no`, in place of `true` or `false`."""
    return {"true": "yes", "false": "no"}[right(arguments)]


@instead_of("do_list_commands", ["list_commands"], "= " + "\n".join(Bug.names))
def genmove_is_not_listed(self, right, arguments):
    """`list_commands` leaves `genmove` out, which is looked at before the table of commands."""
    return right(arguments).replace("\ngenmove", "")


@instead_of("do_list_commands", ["list_commands"], "= " + "\n".join(Bug.names))
def names_have_commas(self, right, arguments):
    """The names of `list_commands` are in one line, with commas between them."""
    return right(arguments).replace("\n", ", ")


@instead_of("do_list_commands", ["list_commands"], "= " + "\n".join(Bug.names))
def names_are_in_one_row(self, right, arguments):
    """The names of `list_commands` are in one line, with spaces between them."""
    return right(arguments).replace("\n", " ")


@instead_of("do_known_command", ["known_command quit"], "= true")
def quit_is_not_known(self, right, arguments):
    """`known_command` doesn't know `quit`, which is looked at before the table of commands."""
    return "false" if arguments[:1] == ["quit"] else right(arguments)


@instead_of("reply", ["1 komi 6.5"], "=", plain=False, waits=True)
def one_newline_where_there_is_no_text(self, right, good, number, text):
    """A reply without a text ends with one newline: the author prints the text and a newline, and
    then a newline."""
    whole = right(good, number, text)
    return whole if text else whole[:-1]


@instead_of("answer", on(5, "b C3", "play w C3"), "?")
def two_replies_for_a_refused_play(self, right, line):
    """A refused play is answered twice: the author prints the failure, doesn't return, and prints
    the success too."""
    whole = right(line)
    twice = whole.startswith("?") and self.command_of(line) == "play"
    return whole + self.reply(True, self.split_id(self.words(line))[0], "") if twice else whole


@instead_of("move", on(5, "b A1 w A2", "play w B1"), "=")
def note_at_a_capture(self, right, colour, point):
    """A line for the author is on standard output before the reply to a play that captures."""
    stones = len(self.board)
    right(colour, point)
    if point != PASS and len(self.board) <= stones:
        self.send("captured\n")


@instead_of("do_list_commands", ["list_commands"], "= " + "\n".join(Bug.names))
def blank_line_in_a_reply(self, right, arguments):
    """The names of `list_commands` have blank lines between their groups, so the reply ends at the
    first one."""
    return right(arguments).replace("\nboardsize", "\n\nboardsize")


@instead_of("answer", ["1 no_such_command"], "?", waits=True)
def no_reply_to_an_unknown_command(self, right, line):
    """A command that isn't known has no reply."""
    whole = right(line)
    return "" if whole.endswith("unknown command\n\n") else whole


@instead_of("answer", on(5, "b C3", "play w C3"), "?")
def blank_line_in_a_failure(self, right, line):
    """The error's text of an illegal play has a blank line and the board below it, so the reply
    ends too soon."""
    return right(line).replace("illegal move", "illegal move:\n\n. . . . .")


@instead_of("do_quit", ["1 quit"], "=")
def quit_has_no_reply(self, right, arguments):
    """The program ends at `quit` without a reply."""
    sys.exit(0)


@instead_of("do_known_command", ["1 known_command no_such_command"], "= false")
def unknown_is_a_failure(self, right, arguments):
    """`known_command` fails for a command that isn't known, in place of `false`."""
    text = right(arguments)
    if text == "false":
        raise Failure("unknown command")
    return text


@instead_of("answer", on(5, "", "komi 0", "7 final_score"), "= 0")
def score_runs_into_the_id(self, right, line):
    """The reply to `final_score` has no space in front of its text, so an even score is a digit
    more of the id."""
    whole = right(line)
    return whole.replace(" ", "", 1) if self.command_of(line) == "final_score" else whole


@shown_by(["1 name"], "= plain", plain=False, waits=True)
class RepliesAreHeld(Bug):
    """A reply is written only once the next line has come: nothing flushes it."""

    held = ""

    def send(self, text):
        if text:
            super().send(self.held)
            self.held = text
        if self.ended:
            super().send(self.held)


@instead_of("do_known_command", ["known_command final"], "= false")
def known_by_its_beginning(self, right, arguments):
    """`known_command` compares as many characters as the word has, so the beginning of a name is
    known."""
    known = any(name.startswith(word) for word in arguments[:1] for name in self.names)
    return "true" if known else right(arguments)


@instead_of("answer", on(5, "b pass", "play w pass"), "=")
def result_comes_after_two_passes(self, right, line):
    """After two passes in a row the result is on standard output before the reply, as in games
    against a person."""
    before = len(self.moves)
    reply = right(line)
    is_over = len(self.moves) > before and [point for _, point in self.moves[-2:]] == [PASS, PASS]
    return f"Game over, {self.write_score(self.score())}\n{reply}" if is_over else reply
