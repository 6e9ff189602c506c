"""The reading of lines and of their words."""
from tests.engines.wrong.bug import instead_of, on
from tests.references.engine.engine import Failure
from tests.references.engine.values import BLACK, WHITE


@instead_of("words", ["1 name# a comment"], "= plain")
def comment_is_a_word(self, right, line):
    """A comment isn't removed."""
    return right(line.replace("#", "\x80"))


@instead_of("answer", ["# a comment"], "nothing")
def comment_has_a_reply(self, right, line):
    """A line that has a comment alone is answered as an unknown command."""
    return right(line) or (self.reply(False, None, "unknown command") if "#" in line else "")


@instead_of("answer", [""], "nothing")
def blank_line_has_a_reply(self, right, line):
    """A blank line is answered."""
    return right(line) or (self.reply(False, None, "unknown command") if not line else "")


@instead_of("cleaned", ["1 name\r"], "= plain")
def cr_stays(self, right, line):
    """CR isn't removed, so the last word of a line from Windows isn't known."""
    return right(line.replace("\r", "\x80"))


@instead_of("cleaned", ["1 na\x01me"], "= plain")
def control_characters_stay(self, right, line):
    """Of the control characters CR alone is removed."""
    return line.replace("\r", "")


@instead_of("words", ["1\tname"], "= plain")
def tab_is_no_space(self, right, line):
    """HT isn't a space between words."""
    return right(line.replace("\t", "\x80"))


@instead_of("lines", ["1 name\n2 version"], "= 1", waits=True)
def second_line_of_a_read_is_lost(self, right, data):
    """Of two commands that one read gives, the second one is lost."""
    return right(data)[:1]


@instead_of(
    "lines",
    on(9, "", "1 play b A1\n2 play w B2\n3 play b C3\n4 play w D4\n5 play b E5\n6 play w F6"),
    "=",
)
def reads_of_sixty_four(self, right, data):
    """A read takes 64 bytes, and a line that continues in the next read is taken as two."""
    return [
        line for start in range(0, len(data), 64) for line in data[start : start + 64].split("\n")
    ]


@instead_of("read_colour", on(5, "", "play black C3"), "=")
def colours_are_letters(self, right, text):
    """`black` and `white` aren't read, only `b` and `w`."""
    return right(text) if len(text) == 1 else None


@instead_of("read_colour", on(5, "", "play W C3"), "=")
def capital_colours_are_unread(self, right, text):
    """A colour in capital letters isn't read."""
    return right(text) if text.islower() else None


@instead_of("read_vertex", on(5, "", "play b c3"), "=")
def small_vertices_are_unread(self, right, text):
    """A vertex in small letters isn't read."""
    return right(text) if text.isupper() or text == "pass" else None


@instead_of("read_vertex", on(5, "", "play b PASS"), "=")
def capital_pass_is_unread(self, right, text):
    """A pass in capital letters isn't read."""
    return None if text == "PASS" else right(text)


@instead_of("do_known_command", ["known_command Play"], "= false")
def letters_of_any_case(self, right, arguments):
    """`known_command` reads a name in any case, and case matters."""
    return right([word.lower() for word in arguments])


@instead_of("lines", ["1 name\n2 version"], "= 1")
def last_line_of_a_read_is_first(self, right, data):
    """The lines of a read are put on a list, and taken from its end."""
    return right(data)[::-1]


@instead_of("answer", ["  1 name"], "= plain")
def spaces_before_a_line(self, right, line):
    """A line that begins with a space is an unknown command."""
    whole = right(line)
    return self.reply(False, None, "unknown command") if whole and line.startswith(" ") else whole


@instead_of("lines", ["100 known_command fixed_handicap"], "= true")
def lines_of_thirty_one(self, right, data):
    """A line has room for 31 characters with its newline, and what comes after them is the next
    line."""
    starts = [(line, start) for line in right(data) for start in range(0, max(len(line), 1), 31)]
    return [line[start : start + 31] for line, start in starts]


@instead_of("do_genmove", on(5, "", "genmove white"), "but")
def genmove_reads_a_letter(self, right, arguments):
    """`genmove` reads its colour by itself, as `b` or `w` alone."""
    if arguments and len(arguments[0]) > 1:
        raise Failure("syntax error")
    return right(arguments)


@instead_of("read_colour", on(5, "white A1 b A2 b B1", "play b A1"), "=")
def white_is_a_letter(self, right, text):
    """White is read where the colour is `w`, and each other spelling of a colour is Black, `white`
    too."""
    colour = right(text)
    return BLACK if colour == WHITE and text.lower() != "w" else colour
