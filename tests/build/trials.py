"""Random trials of the programs, in which two builds have to do the same.

A trial is a command and its input: a conversation with gtp_engine, a match of twogtp or a check by
gtp_check. The engines of a match are named by their paths in the folder of the programs.
"""
from __future__ import annotations

import os
import random
import shlex
from typing import Callable, Iterator, List, NamedTuple, Union

from tests.references.engine import conversations as reference

Word = Union[str, bytes]  # bytes that are no text are bytes
Option = List[Word]


class Trial(NamedTuple):
    """A command, by the name of its program, and what it reads."""

    program: str
    words: List[Word]
    text: bytes = b""

    def __str__(self) -> str:
        words = [os.fsdecode(word) for word in self.words]
        return shlex.join([f"./{self.program}", *words])


Draw = Callable[[random.Random], Trial]


def trials(draw: Draw, seed: int, count: int) -> Iterator[Trial]:
    """Yields so many trials that are drawn in this way."""
    for number in range(1, count + 1):
        yield draw(random.Random(f"{seed} {number}"))


def flattened(options: List[Option]) -> List[Word]:
    """Returns the words of options."""
    return [word for option in options for word in option]


# ---- conversations

FAULTS = ["stop:{n}", "cut:{n}:{k}", "junk:{n}", "flood:{n}"]
BAD_FAULTS = "none bad stop stop:0 stop:2001 cut:1 cut:1:2048 cut:1:2049 junk:007 FLOOD:1".split()
BAD_SEEDS = ["4294967296", "18446744073709551616", "-1", "+1", "", "x", "0x1", "1.0", "007"]
ODD_WORDS: Option = [
    *["--help", "--version", "-h", "--", "-", "", "x", "--x", "--seed", "--policy=last", "--ko"],
    *[b"--fault=\xff", b"\xc3\x28"],
]
RARE_KINDS = [name for name, kind in reference.KINDS.items() if kind.one_in > 1]
KINDS = [name for name in reference.KINDS if name not in RARE_KINDS]


def conversation(r: random.Random) -> Trial:
    """Returns a conversation with gtp_engine, some of whose options are wrong."""
    kind = r.choice(RARE_KINDS if r.random() < 0.05 else KINDS)
    talk = reference.conversation(kind, str(r.random()))
    own = talk.options
    options: List[Option] = [
        ["--policy", str(own.policy)],
        ["--seed", str(own.seed)],
        ["--ko", str(own.rule)],
    ]
    if own.book:
        options.append([f"--book={own.book.decode()}"])
    if r.random() < 0.15:
        options.append(["--fault", r.choice(BAD_FAULTS) if r.random() < 0.15 else fault(r)])
    r.shuffle(options)
    if r.random() < 0.06:
        spoil(r, options)
    return Trial("gtp_engine", flattened(options), talk.data)


def fault(r: random.Random) -> str:
    """Returns a fault that the engine has on request.

    It ends within a reply where it does, since a controller writes once more after a whole one.
    """
    times = r.choice([1, 2, 3, 5, 8, r.randint(1, 40)])
    return r.choice(FAULTS).format(n=times, k=r.choice([0, 1, 2, 4, 6]))


def spoil(r: random.Random, options: List[Option]) -> None:
    """Removes an option, gives one twice, or adds a wrong seed or another wrong word."""
    kind = r.randrange(4)
    if kind == 0:
        options.pop()
    elif kind == 1:
        options.append(r.choice(options))
    elif kind == 2:
        options.append([f"--seed={r.choice(BAD_SEEDS)}"])
    else:
        options.insert(r.randint(0, len(options)), [r.choice(ODD_WORDS)])


# ---- matches

SIZES = [1, 2, 3, 4, 5, 7, 9, 9, 9, 13, 19, 25]
KOMIS = ["6.5", "0", "-3.5", "7", "0.5", "100.5", "999999999.5", "-0"]
ENTRIES = ["C3", "D4", "", "E5", "resign", "A1", "pass", "B2", "T19", "Z25"]
NO_ENGINES = [
    *["./no_such_engine", "no_such_engine", "/etc/passwd", "/etc/passwd/x", "/"],
    f"./{300 * 'x'}",
]
WRONG_OPTIONS = [
    *["--size 0", "--size=26", "--komi=6.7", "--handicap 1", "--games 0", "--games 4294967297"],
    *["--max-moves=2001", "--restarts 1001", "--why --why", "--help", "--version", "--black="],
    *["--x", "x"],
]
ODD_OPTIONS: List[Option] = [[b"\xff"]]
ODD_OPTIONS += [[*option.split()] for option in WRONG_OPTIONS]


def match(r: random.Random) -> Trial:
    """Returns a match of twogtp, whose outcome doesn't depend on when a process runs.

    So each engine that ends does so at a genmove, when nothing else is on its way to it.
    """
    size = r.choice(SIZES)
    options: List[Option] = [
        ["--black", engine(r)],
        ["--white", engine(r)],
        ["--size", str(size)],
    ]
    handicaps = ["0", "2", "3", "4", "5", "9"] if size >= 7 else ["0", "2"]
    if r.random() < 0.5:
        options.append([f"--komi={r.choice(KOMIS)}"])
    if r.random() < 0.3:
        options.append(["--handicap", r.choice(handicaps)])
    if r.random() < 0.4:
        options.append(["--games", str(r.randint(1, 4))])
    if r.random() < 0.6:
        options.append(["--max-moves", r.choice(["1", "2", "10", "80", "200", "400"])])
    if r.random() < 0.5:
        options.append(["--restarts", r.choice(["0", "1", "3", "10"])])
    options += [[flag] for flag in ("--record", "--show", "--why") if r.random() < 0.7]
    if r.random() < 0.04:
        options.append(r.choice(ODD_OPTIONS))
    r.shuffle(options)
    return Trial("twogtp", flattened(options))


def engine(r: random.Random) -> str:
    """Returns the command of an engine, or now and then of what can't be started."""
    return r.choice(NO_ENGINES) if r.random() < 0.04 else own_engine(r)


def own_engine(r: random.Random) -> str:
    """Returns a command of gtp_engine, which may fail on request."""
    policy = r.choice(["random", "random", "random", "first", "book"])
    words = ["./gtp_engine", "--policy", policy, "--seed", str(r.randint(0, 9999))]
    if r.random() < 0.3:
        words += ["--ko", r.choice(["simple", "positional"])]
    if r.random() < 0.2:
        words.append("--book=" + ",".join(r.choice(ENTRIES) for _ in range(r.randint(1, 12))))
    if r.random() < 0.35:
        words += ["--fault", fault(r)]
    return " ".join(words)


# ---- checks

LESSONS: List[Option] = [
    ["--quick"],
    ["--quick", "--singly"],
    ["--only", "ko"],
    ["--only", "genmoves"],
    ["--only", "restarts"],
    ["--skip", "record"],
    ["--only", "ko", "--stop-at-first"],
]


def checks(seed: int, count: int) -> Iterator[Trial]:
    """Yields checks by gtp_check, which take the lessons in turn."""
    for number in range(1, count + 1):
        r = random.Random(f"{seed} {number}")
        words = [*LESSONS[number % len(LESSONS)], "--seed", str(r.randint(0, 2**32 - 1))]
        engine = own_engine(r)
        if r.random() < 0.5:
            words += ["--ko", r.choice(["simple", "positional"])]
        yield Trial("gtp_check", [*words, engine])
