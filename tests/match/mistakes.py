"""Mistakes that people make with the command of an engine, and the result of each in a match.

Most are in the order of docs/troubleshooting.md. All was worked out by hand from README.md,
docs/matches.md and docs/protocol.md.
"""
from __future__ import annotations

from dataclasses import dataclass
from typing import Optional, Union

from tests.references.engine.values import BLACK, WHITE, Colour

PASSES = "gtp_engine --policy book"  # its book is empty
SETUP = "1 boardsize 9\n2 komi 6.5\n3 clear_board\n"  # what an engine is sent first
NO_LIBRARY = (
    "engine: error while loading shared libraries: libOpenCL.so.1: "
    "cannot open shared object file: No such file or directory\n"
)

PLAYED = "game 1: W+6.5 moves 2 restarts 0 0"  # two passes: White has komi
ABANDONED = "game 1: abandoned black moves 0 restarts 2 0"
ABANDONED_AT_ONCE = "game 1: abandoned black moves 0 restarts 0 0"  # with `--restarts 0`

# Why a program wasn't started.
NO_FILE = "no such file"
NOT_ALLOWED = "not allowed"
NO_PROGRAM = "not a program that the system can run"
SPOKEN = "<spoken>"  # in what `--why` reports: what the program has said, once
# The commands that are unanswered. Those of the script are sent at once.
ALL_UNANSWERED = '3 unanswered, the first "1 boardsize 9"'


@dataclass(frozen=True)
class Spoken:
    """What a program writes to its standard error when it is run alone, so many times."""

    command: tuple[str, ...]
    times: int = 3
    text: str = ""  # what it reads


@dataclass(frozen=True)
class Mistake:
    """A command of an engine, the file that it names or should name, and the result."""

    name: str
    line: str  # of the game
    status: int
    command: str = "./engine"
    content: Union[str, bytes] = f"#!/bin/sh\nexec {PASSES}\n"
    path: str = "engine"  # of the file with this content
    mode: int = 0o755
    link: Optional[str] = None  # what the file is a link to, where it is one
    is_being_written: bool = False  # while the match is played
    side: Colour = BLACK  # which side is mistaken
    other: str = PASSES  # the command of the other side
    options: tuple[str, ...] = ("--size", "9")
    folder: str = "."  # in which the match is played
    errors: Union[str, Spoken] = ""
    why: str = ""  # the standard error where `--why` is one of the options
    # How the engine ends, where that is before it reads anything. Then time decides whether twogtp
    # first meets the end of its output, or fails to write to it.
    early_end: str = ""
    search_path: Optional[str] = None  # the PATH of twogtp, where it has another one
    limits: tuple[str, ...] = ()  # of twogtp, as `prlimit` reads them
    as_other_user: bool = False  # than root, for whom these limits don't hold


def not_started(
    reason: str, program: str = "./engine", times: int = 3, side: Colour = BLACK
) -> str:
    """Returns what `--why` reports of a program that can't be started, by 80 bytes of its name."""
    return f'twogtp: game 1: {side}: not started: {reason}: "{program}"\n' * times


def ended(how: str, said: str = "", times: int = 3) -> str:
    """Returns the standard error where an engine says this each time, and ends so."""
    report = f'twogtp: game 1: black: {ALL_UNANSWERED}: its output ended, {how}; it wrote ""\n'
    return (said + report) * times


# The program can't be started, three times (`--restarts` is 2). Black is started first, so White
# isn't asked for where both are wrong. A command is cut at spaces, without quoting and without a
# shell. The file `engine` plays where it is named rightly. A pipe for each direction is four open
# files, and three are open from the start; so six aren't enough. One process is the program's own.
NOT_STARTED = [
    Mistake("without a mistake, as Black", PLAYED, 0),
    Mistake("without a mistake, as White", PLAYED, 0, side=WHITE),
    Mistake(
        "without a mistake, by a relative path from the right folder",
        PLAYED,
        0,
        "bin/engine",
        path="bin/engine",
    ),
    Mistake(
        "a wrong path",
        ABANDONED,
        1,
        "./no_such_folder/engine",
        why=not_started(NO_FILE, "./no_such_folder/engine"),
    ),
    Mistake(
        "a wrong path, of White",
        "game 1: abandoned white moves 0 restarts 0 2",
        1,
        "./no_such_folder/engine",
        side=WHITE,
        why=not_started(NO_FILE, "./no_such_folder/engine", side=WHITE),
    ),
    Mistake(
        "a wrong path on both sides",
        ABANDONED,
        1,
        "./no_such_folder/engine",
        other="./no_such_folder/engine",
        why=not_started(NO_FILE, "./no_such_folder/engine"),
    ),
    Mistake(
        "a name that is not in PATH",
        ABANDONED,
        1,
        "no_such_engine_in_path",
        why=not_started(NO_FILE, "no_such_engine_in_path"),
    ),
    Mistake(
        "a relative path without ./",
        ABANDONED,
        1,
        "engine_in_this_folder",
        path="engine_in_this_folder",
        why=not_started(NO_FILE, "engine_in_this_folder"),
    ),
    Mistake(
        "a relative path from another folder",
        ABANDONED,
        1,
        "bin/engine",
        path="bin/engine",
        folder="elsewhere",
        why=not_started(NO_FILE, "bin/engine"),
    ),
    Mistake(
        "a path with a space",
        ABANDONED,
        1,
        "./my engines/engine",
        path="my engines/engine",
        why=not_started(NO_FILE, "./my"),
    ),
    Mistake(
        "a path with a space, in quotes",
        ABANDONED,
        1,
        '"./my engines/engine"',
        path="my engines/engine",
        why=not_started(NO_FILE, r"\"./my"),
    ),
    Mistake(
        "a folder", ABANDONED, 1, "./bin", path="bin/engine", why=not_started(NOT_ALLOWED, "./bin")
    ),
    Mistake(
        "a path below a file",
        ABANDONED,
        1,
        "./engine/engine",
        why=not_started("a part of its path is no directory", "./engine/engine"),
    ),
    Mistake(
        "a path that is too long",
        ABANDONED,
        1,
        "./" + 300 * "x",
        why=not_started("too long", "./" + 78 * "x"),
    ),
    Mistake(
        "a tab for a space",
        ABANDONED,
        1,
        "gtp_engine\t--policy book",
        why=not_started(NO_FILE, r"gtp_engine\t--policy"),
    ),
    Mistake(
        "a newline for a space",
        ABANDONED,
        1,
        "gtp_engine\n--policy book",
        why=not_started(NO_FILE, r"gtp_engine\n--policy"),
    ),
    Mistake(
        "runs of spaces, which are no mistake",
        "game 1: W+R moves 0 restarts 0 0",
        0,
        "  gtp_engine   --policy book  --book  resign ",
    ),
    Mistake(
        "a backslash for a slash",
        ABANDONED,
        1,
        r"\bin/engine",
        path="bin/engine",
        why=not_started(NO_FILE, r"\\bin/engine"),
    ),
    Mistake(
        "a path with letters beyond ASCII, mistyped",
        ABANDONED,
        1,
        "./möter/engine",
        path="motör/engine",
        why=not_started(NO_FILE, r"./m\xC3\xB6ter/engine"),
    ),
    Mistake(
        "a link to a program that isn't there",
        ABANDONED,
        1,
        link="no_such_engine",
        why=not_started(NO_FILE),
    ),
    Mistake(
        "a link to itself", ABANDONED, 1, link="engine", why=not_started("the system refused it")
    ),
    Mistake(
        "a PATH without the program's folder",
        ABANDONED,
        1,
        PASSES,
        search_path="/no/such/folder",
        why=not_started(NO_FILE, "gtp_engine"),
    ),
    Mistake(
        "no more files may be open",
        ABANDONED,
        1,
        limits=("--nofile=6",),
        why=not_started("too many open files"),
    ),
    Mistake(
        "no more processes may be started",
        ABANDONED,
        1,
        PASSES,
        limits=("--nproc=1",),
        as_other_user=True,
        why=not_started("too many processes", "gtp_engine"),
    ),
    Mistake(
        "a file that may not be executed", ABANDONED, 1, mode=0o644, why=not_started(NOT_ALLOWED)
    ),
    Mistake(
        "a text without #!",
        ABANDONED,
        1,
        content="exec gtp_engine --policy book\n",
        why=not_started(NO_PROGRAM),
    ),
    Mistake(
        "a #! of an interpreter that isn't there",
        ABANDONED,
        1,
        content="#!/no/such/interpreter\n",
        why=not_started(NO_FILE),
    ),
    Mistake(
        "a script with CR LF",
        ABANDONED,
        1,
        content="#!/bin/sh\r\nexec gtp_engine --policy book\r\n",
        why=not_started(NO_FILE),
    ),
    Mistake(
        "bytes that are no program",
        ABANDONED,
        1,
        content=bytes(range(256)),
        why=not_started(NO_PROGRAM),
    ),
    Mistake(
        "a file that is just being written",
        ABANDONED,
        1,
        is_being_written=True,
        why=not_started("the file is open for writing"),
    ),
    Mistake("an empty file", ABANDONED, 1, content="", why=not_started(NO_PROGRAM)),
    Mistake(
        "the weights in place of the engine",
        ABANDONED,
        1,
        "./weights.txt",
        content="1\n0.25 -0.5\n",
        path="weights.txt",
        mode=0o644,
        why=not_started(NOT_ALLOWED, "./weights.txt"),
    ),
]

# The same, since no shell reads the command. Quotes and redirections reach the engine, which
# complains and ends, three times. HOME is the folder in which `engine` is.
SHELL_SYNTAX = [
    Mistake(
        "double quotes in an option",
        ABANDONED,
        1,
        'gtp_engine --book "D4"',
        errors="gtp_engine: bad book\n" * 3,
        why=ended("exit status 2", said="gtp_engine: bad book\n"),
        early_end="exit status 2",
    ),
    Mistake(
        "single quotes in an option",
        ABANDONED,
        1,
        "gtp_engine --fault 'none'",
        errors="gtp_engine: bad fault\n" * 3,
        why=ended("exit status 2", said="gtp_engine: bad fault\n"),
        early_end="exit status 2",
    ),
    Mistake("~", ABANDONED, 1, "~/engine", why=not_started(NO_FILE, "~/engine")),
    Mistake("$HOME", ABANDONED, 1, "$HOME/engine", why=not_started(NO_FILE, "$HOME/engine")),
    Mistake(
        "2>/dev/null",
        ABANDONED,
        1,
        "gtp_engine 2>/dev/null",
        errors=Spoken(("gtp_engine", "2>/dev/null")),
        why=ended("exit status 2", said=SPOKEN),
        early_end="exit status 2",
    ),
    Mistake(
        "cd x; engine",
        ABANDONED,
        1,
        "cd bin; ./engine",
        path="bin/engine",
        why=not_started(NO_FILE, "cd"),
    ),
    Mistake("VAR=1 engine", ABANDONED, 1, "VAR=1 ./engine", why=not_started(NO_FILE, "VAR=1")),
]

# It is no engine, or says something on its standard error, which is the program's. A shell takes
# the commands for its own, and writes there alone; sort reads to the end of its input. Both are
# ended by `timeout`. A book is used under its policy alone; without it our engine plays A1.
ENDS_AT_ONCE = [
    Mistake(
        "a wrong option of the engine",
        ABANDONED,
        1,
        "gtp_engine --polcy book",
        errors=Spoken(("gtp_engine", "--polcy", "book")),
        why=ended("exit status 2", said=SPOKEN),
        early_end="exit status 2",
    ),
    Mistake(
        "a shell in place of an engine",
        ABANDONED_AT_ONCE,
        1,
        "timeout 5 /bin/sh",
        options=("--size", "9", "--restarts", "0"),
        errors=Spoken(("/bin/sh",), 1, SETUP),
        why=ended("exit status 124", said=SPOKEN, times=1),
    ),
    Mistake(
        "a program that reads to the end in place of an engine",
        ABANDONED_AT_ONCE,
        1,
        "timeout 2 sort",
        options=("--size", "9", "--restarts", "0"),
        why=ended("exit status 124", times=1),
    ),
    Mistake(
        "a book without --policy book",
        "game 1: limit moves 1 restarts 0 0\nA1",
        0,
        "gtp_engine --book D4",
        options=("--size", "9", "--max-moves", "1", "--record"),
    ),
    Mistake(
        "a library of the engine is missing",
        ABANDONED,
        1,
        content=f"#!/bin/sh\nprintf '{NO_LIBRARY}' >&2\nexit 127\n",
        errors=NO_LIBRARY * 3,
        why=ended("exit status 127", said=NO_LIBRARY),
        early_end="exit status 127",
    ),
    Mistake(
        "a banner on the standard error",
        PLAYED,
        0,
        content=f"#!/bin/sh\necho 'My Engine 1.0' >&2\nexec {PASSES}\n",
        errors="My Engine 1.0\n",
        why="My Engine 1.0\n",
    ),
]

MISTAKES = [*NOT_STARTED, *SHELL_SYNTAX, *ENDS_AT_ONCE]
