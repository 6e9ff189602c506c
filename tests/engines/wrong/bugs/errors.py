"""What has to fail and to change nothing, and what never fails."""
from tests.engines.wrong.bug import instead_of, on
from tests.references.engine.engine import Failure
from tests.references.engine.values import BLACK, PASS


@instead_of("do_name", ["1 name"], "= plain")
def name_fails(self, right, arguments):
    """`name` fails, since nobody gave the engine one."""
    raise Failure("no name")


@instead_of("do_protocol_version", ["1 protocol_version"], "= 2")
def protocol_version_is_unknown(self, right, arguments):
    """There is no `protocol_version`."""
    raise Failure("unknown command")


@instead_of("do_known_command", ["1 known_command play"], "= true")
def known_command_is_unknown(self, right, arguments):
    """There is no `known_command`, though it is in the list of commands."""
    raise Failure("unknown command")


@instead_of("execute", ["1 no_such_command"], "?")
def unknown_is_done(self, right, words):
    """A command that isn't known is ignored, and answered as done."""
    return right(words) if words and words[0] in self.names else ""


@instead_of("execute", ["1 no_such_command"], "?")
def unknown_ends_the_program(self, right, words):
    """The program ends at a command that isn't known."""
    if words[:1] and words[0] not in self.names:
        raise SystemExit(1)
    return right(words)


@instead_of("execute", ["1 no_such_command b D4"], "?")
def unknown_with_arguments_is_done(self, right, words):
    """Only a name that stands alone is looked for among the commands."""
    return "" if len(words) > 2 and words[0] not in self.names else right(words)


@instead_of("argument", on(5, "", "komi x"), "?")
def unread_argument_ends_the_program(self, right, arguments, number, read):
    """The program ends where an argument can't be read."""
    try:
        return right(arguments, number, read)
    except Failure:
        raise SystemExit(1) from None


@instead_of("do_boardsize", on(5, "", "boardsize x"), "?")
def unread_size_is_nineteen(self, right, arguments):
    """Where the size can't be read the board is 19x19."""
    right(arguments if arguments[:1] and arguments[0].isdigit() else ["19"])


@instead_of("do_komi", ["1 komi x"], "?")
def unread_komi_is_taken(self, right, arguments):
    """A komi that can't be read is answered as taken, and isn't."""
    if self.read_komi(arguments[0]) is not None:
        right(arguments)


@instead_of("do_play", on(5, "b C3", "play w"), "?")
def missing_vertex_is_a_pass(self, right, arguments):
    """A play without a vertex is a pass."""
    right(arguments if len(arguments) > 1 else [*arguments, "pass"])


@instead_of("read_vertex", on(5, "b C3", "play w Z99"), "?")
def unread_vertex_is_a_pass(self, right, text):
    """A vertex that no board has is read as a pass."""
    return right(text) or PASS


@instead_of("do_play", on(5, "b C3", "! play w Z99", "undo", "play w C3"), "=")
def unread_play_is_recorded(self, right, arguments):
    """A play whose vertex can't be read fails, and is in the record as a pass."""
    colour = self.argument(arguments, 0, self.read_colour)
    if len(arguments) > 1 and self.read_vertex(arguments[1]) is None:
        self.move(colour, PASS)
    right(arguments)


@instead_of("read_colour", on(5, "", "genmove x"), "?")
def unread_colour_is_black(self, right, text):
    """A colour that can't be read is Black."""
    return right(text) or BLACK
