#!/usr/bin/env python3
"""A small engine that misbehaves where its plan says so, the same way each time.

usage: faulty.py LOG SEED PASSES STYLE PLAN

It knows no rules of play: asked for a move, it takes the next point, in an order that SEED gives,
that nobody has named since the board was empty, or passes at about one move in PASSES (never, where
that is 0). It replies to each command with success.

STYLE is a template, by which all replies are written, `<reply>` for the plain one. PLAN is `-`, or
faults with commas between: LIFE/PLACE/TEMPLATE/THEN. LIFE counts the processes that were started
with this file LOG, from 1; `*` is each of them. PLACE is 0 before the first command, cN at the N-th
command of this life, gN at its N-th genmove, pN at its N-th play, uN at its N-th undo, h at a
handicap, q at quit; pN-M is each play from the N-th to the M-th. There the template is written in
place of the reply, in one write. THEN is

    on               the engine continues
    ends ends:N      the process ends, with status N, or by signal N where that is below zero
    closes closes:N  its output ends, and the process continues, or soon ends so
    shuts            its input is closed before that write, and the process continues
    forgets          the engine does not do what it was sent
    refuses          the same, but the log continues
    late             that write comes a second later, and the process ends
    floods           the template is written again and again
    bytes            each byte is a write of its own

In a template `_` is a space, \\n \\r \\t and \\xHH are bytes, and in angle brackets are

    <id> <id+1> <id-1> ..  the command's id, or a number near it
    <reply> <reply:5>      the plain reply, or its first five bytes
    <text> <lower>         the plain reply's text, or that in small letters
    <lines> <reversed>     its words, a line each, or in reverse order
    <old> <fresh> <off>    a vertex that was named, one that wasn't, one off the board
    <8193*\\n>              that byte, 8,193 times
    <fill:8192:\\n>         as many of that byte as make the whole template so long

At its start the engine adds a line `start` to LOG, and then each command that it is sent, until the
first fault. What it does at an undo is to reply: what is taken back was named all the same, so it
plays another point.

It is run as a process by `twogtp`, and as an object by the reference. It imports little, so that it
starts quickly.
"""
from __future__ import annotations

import os
import sys
import time

COLUMNS = b"ABCDEFGHJKLMNOPQRSTUVWXYZ"
ON, ENDS, CLOSES, SHUTS = "on", "ends", "closes", "shuts"
FORGETS, REFUSES, LATE, FLOODS, BYTES = "forgets", "refuses", "late", "floods", "bytes"
LONG = 100  # seconds, more than any match takes


class Fault:
    """A fault of the plan."""

    def __init__(self, text: str) -> None:
        self.life, place, self.template, self.then = text.split("/")
        first, _, last = place[1:].partition("-")
        numbers = range(int(first), int(last) + 1) if last else []
        self.places = [f"{place[0]}{number}" for number in numbers] or [place]


class Act:
    """What an engine writes, and what it does then."""

    def __init__(self, text: bytes, then: str = ON) -> None:
        self.text, self.then = text, then


def read_plan(text: str) -> list[Fault]:
    """Returns the faults of a plan."""
    return [] if text == "-" else [Fault(fault) for fault in text.split(",")]


def pseudo_random(seed: int, number: int) -> int:
    """Returns a number that looks random, of these two."""
    word = seed * 1000003 + number * 7919 + 12345
    for _ in range(3):
        word = (word * 6364136223846793005 + 1442695040888963407) % 2**64
    return word >> 33


def random_order(size: int, seed: int) -> list[bytes]:
    """Returns all points of a board as vertices, in an order that the seed gives."""
    rows = range(1, size + 1)
    points = [b"%c%d" % (COLUMNS[column], row) for row in rows for column in range(size)]
    numbered = sorted((pseudo_random(seed, place), point) for place, point in enumerate(points))
    return [point for _, point in numbered]


class Faulty:
    """One life of the engine."""

    takes_all = False  # at once of what it is sent
    status = 0  # with which the engine ends

    def __init__(self, seed: int, passes: int, style: str, plan: str, life: int) -> None:
        self.seed, self.passes, self.style, self.life = seed, passes, style, life
        self.plan = read_plan(plan)
        self.size = 1
        # of the board, in the order in which the engine plays there; None before that is needed
        self.points: list[bytes] | None = []
        self.named: list[bytes] = []  # the vertices since the board was empty
        self.count: dict[str, int] = {}  # of commands of each name, and of all
        # whether the next command is logged, which is not so where each reply may be too long
        self.logs = "*" not in style

    def begin(self) -> Act:
        """Returns what it does before its first command."""
        fault = self.fault_at(["0"])
        return Act(self.expanded(fault.template, b"", b""), fault.then) if fault else Act(b"")

    def answer(self, line: bytes) -> Act:
        """Returns what it does when it is sent this."""
        words = line.split()
        number = words.pop(0) if words[0].isdigit() else b""
        fault = self.fault_at(self.places(words[0].decode()))
        is_done = not fault or fault.then not in (FORGETS, REFUSES)
        text = self.reply_text(words[0], words[1:]) if is_done else b""
        if fault:
            return Act(self.expanded(fault.template, number, text), fault.then)
        return Act(self.expanded(self.style, number, text), ENDS if words[0] == b"quit" else ON)

    def places(self, name: str) -> list[str]:
        """Returns the names in a plan of the place of this command, which is counted."""
        for counted in ("", name):
            self.count[counted] = self.count.get(counted, 0) + 1
        places = ["c%d" % self.count[""]]
        if name in ("genmove", "play", "undo"):
            places.append("%s%d" % (name[0], self.count[name]))
        return places + {"fixed_handicap": ["h"], "quit": ["q"]}.get(name, [])

    def fault_at(self, places: list[str]) -> Fault | None:
        """Returns the fault of the plan at one of these places, if there is one.

        From then on nothing is logged, unless the fault only refuses.
        """
        for fault in self.plan:
            if fault.life in ("*", str(self.life)) and set(places) & set(fault.places):
                self.logs = self.logs and fault.then == REFUSES
                return fault
        return None

    # ---- what it plays

    def reply_text(self, name: bytes, arguments: list[bytes]) -> bytes:
        """Returns the text of the plain reply to a command."""
        if name == b"boardsize":
            self.size = int(arguments[0])
            self.points = None
        elif name == b"clear_board":
            self.named = []
        elif name == b"fixed_handicap":
            self.named = handicap(self.size, int(arguments[0]))
            return b" ".join(self.named)
        elif name == b"play":
            self.named.append(arguments[1])
        elif name == b"genmove":
            self.named.append(self.choose())
            return self.named[-1]
        return b""

    def choose(self) -> bytes:
        """Returns what it plays."""
        if self.passes and pseudo_random(self.seed, len(self.named)) % self.passes == 0:
            return b"pass"
        return self.unnamed() or b"pass"

    def unnamed(self) -> bytes:
        """Returns the next vertex that wasn't named; nothing where all were."""
        if self.points is None:
            self.points = random_order(self.size, self.seed)
        return next((point for point in self.points if point not in self.named), b"")

    # ---- what it writes

    def expanded(self, template: str, number: bytes, text: bytes) -> bytes:
        """Returns the bytes of a template, of a command with this id, and of its plain reply."""
        filling = None
        out = b""
        for part in parts(template):
            if part.startswith("<fill:"):
                _, length, filler = part[1:-1].split(":")
                filling = len(out), int(length), literal(filler)
            elif part.startswith("<"):
                out += self.named_part(part[1:-1], number, text)
            else:
                out += literal(part)
        if filling:
            place, size, byte = filling
            out = out[:place] + byte * (size - len(out)) + out[place:]
        return out

    def named_part(self, name: str, number: bytes, text: bytes) -> bytes:
        """Returns the bytes of what is in angle brackets."""
        reply = b"=" + number + (b" " + text if text else b"") + b"\n\n"
        if name.startswith("reply"):
            return reply[: int(name[6:] or len(reply))]
        if name.startswith("id"):
            return b"%d" % (int(number) + int(name[2:] or 0)) if number else b""
        if "*" in name:
            times, repeated = name.split("*")
            return literal(repeated) * int(times)
        if name == "old":
            old = (vertex for vertex in self.named if vertex not in (b"pass", text))
            return next(old, b"A1")
        if name == "fresh":
            return self.unnamed() or b"pass"
        return {
            "text": text,
            "lower": text.lower(),
            "lines": b"\n".join(text.split()),
            "reversed": b" ".join(reversed(text.split())),
            "off": b"A%d" % (self.size + 1),
        }[name]


def parts(template: str) -> list[str]:
    """Returns a template cut into what is in angle brackets, and what is between."""
    pieces = []
    for piece in template.split("<"):
        inside, closes, rest = piece.partition(">")
        pieces += ["<" + inside + ">", rest] if closes else [piece]
    return pieces


def literal(text: str) -> bytes:
    """Returns the bytes that a text of a template means, which has no angle brackets."""
    return text.replace("_", " ").encode().decode("unicode_escape").encode("latin-1")


def handicap(size: int, number: int) -> list[bytes]:
    """Returns the handicap's vertices; none where the size doesn't allow it.

    The engine may have forgotten the size. Only here the reference's table is needed.
    """
    from tests.references.engine import values

    return [values.write_vertex(point) for point in values.handicap_points(size, number) or []]


# ---- as a process


def run(log: str, seed: str, passes: str, style: str, plan: str) -> None:
    """Reads commands and answers them, until the input ends or the plan ends it."""
    file = os.open(log, os.O_RDWR | os.O_CREAT | os.O_APPEND)
    os.write(file, b"start\n")
    life = os.pread(file, 1 << 24, 0).count(b"start\n")
    engine = Faulty(int(seed), int(passes), style, plan, life)
    output = Output()
    output.take(engine.begin())
    for line in sys.stdin.buffer:
        if engine.logs:
            os.write(file, line)
        output.take(engine.answer(line))


class Output:
    """The standard output, until it is closed."""

    def __init__(self) -> None:
        self.is_open = True

    def take(self, act: Act) -> None:
        """Does this. A controller that doesn't read the output is gone."""
        then, _, status = act.then.partition(":")
        if then == SHUTS:
            os.close(0)
        if then == LATE:
            time.sleep(1)
        if self.is_open:
            self.write(act.text, then)
        if then in (ENDS, LATE):
            end(int(status or 0))
        if then == CLOSES and self.is_open:
            os.close(1)
            self.is_open = False
            if status:
                time.sleep(0.05)
                end(int(status))
        if then == SHUTS:
            time.sleep(LONG)
            os._exit(0)

    def write(self, text: bytes, then: str) -> None:
        """Writes a text, at once, byte by byte or without end."""
        try:
            while text:
                written = os.write(1, text[:1] if then == BYTES else text)
                text = text if then == FLOODS else text[written:]
        except BrokenPipeError:
            os._exit(0)


def end(status: int) -> None:
    """Ends the process with this status, or by this signal, which may stop it instead."""
    if status < 0:
        import resource

        resource.setrlimit(resource.RLIMIT_CORE, (0, 0))
        os.kill(os.getpid(), -status)
        time.sleep(LONG)
    os._exit(status)


if __name__ == "__main__":
    sys.path[0] = os.path.abspath(os.path.join(os.path.dirname(__file__), "../../.."))
    run(*sys.argv[1:])
