#!/usr/bin/env python3
"""Measures GTP commands through a pipe, for several engines in turn in one run.

usage: bench/commands/commands.py [OPTION..] ENGINE..

Each ENGINE is a command line, split at spaces. All get the same lines, in one burst; or with
--singly one at a time, as a controller sends them, each after the reply to the one before. A round
is one run of each program, one after the other, and the best round of each counts.

The works:
  name        `name`, again and again; compared with the machine's limit, bench/commands/copy.c,
              which only copies its input with one write a line
  pairs       a `play` and an `undo`, on an empty 19x19
  deep        an `undo` and the same `play`, after a game of 200 moves on 19x19 in which each colour
              has one chain; with --half after the plays of a half full board, in which the stones
              are scattered
  play        plays of one colour to and fro over an empty 19x19, with a `clear_board` every 200
  replay      a game of 200 moves on 19x19, from `clear_board` on
  full        2,000 times `genmove`, of both colours in turn, which fills our record; then
              `final_score`, `showboard` and `undo`. It shows the peak of memory

and three that ask about one position, an empty board of --size or, with --half, one with half as
many plays as it has points. Each is asked for half a second or more, after a first time that counts
only if it takes two seconds:
  showboard   `showboard`, in one burst
  final_score `final_score`, one at a time; a play, its `final_score` and an `undo` after each
              aren't timed, and are there since GNU Go caches the answer for the last position
  genmove     `genmove b`, one at a time; the `undo` after each isn't timed. In an ENGINE, {book} is
              a book whose entry for this position is a free point

The plays of a half full board are random, and always the same: the points in a shuffled order,
Black and White in turn, except those that the first ENGINE refuses. Each other ENGINE has to accept
them.
"""
from __future__ import annotations

import argparse
import os
import random
import shutil
import subprocess
import sys
import tempfile
import threading
import time
from pathlib import Path
from typing import Dict, List, NamedTuple

LETTERS = "ABCDEFGHJKLMNOPQRSTUVWXYZ"
HERE = Path(__file__).resolve().parent
TOP = HERE.parents[1]
GAMES = "/usr/games"  # where Debian puts games, which is not in every PATH
POSITION_WORKS = {"showboard": "showboard", "final_score": "final_score", "genmove": "genmove b"}
BETWEEN = {"final_score": ["play b {free}", "final_score", "undo"], "genmove": ["undo"]}
SECONDS = 2.0


class Lines(NamedTuple):
    """The lines that are sent before a measurement, and those that are measured."""

    before: List[str]
    measured: List[str]


def game_moves() -> list[str]:
    """Returns 200 moves on 19x19 without a capture: Black to the left, White to the right."""
    moves = []
    for number in range(100):
        column, row = number % 9, 1 + number // 9
        moves.append(f"play b {LETTERS[column]}{row}")
        moves.append(f"play w {LETTERS[18 - column]}{row}")
    return moves


def lines_of(work: str, count: int, plays: list[str]) -> Lines:
    """Returns the lines of a work. The plays are those of a half full board."""
    start = ["boardsize 19", "clear_board"]
    moves = plays or game_moves()
    if work == "name":
        return Lines([], ["name"] * count)
    if work == "pairs":
        return Lines(start, ["play b Q16", "undo"] * (count // 2))
    if work == "deep":
        return Lines(start + moves, ["undo", moves[-1]] * (count // 2))
    if work == "full":
        asked = ["genmove b", "genmove w"] * 1000 + ["final_score", "showboard", "undo"]
        return Lines(start, asked)
    if work == "play":
        return Lines(start, (moves + ["clear_board"]) * (count // 201))
    if work == "replay":
        return Lines(start, (["clear_board"] + moves) * (count // 201))
    sys.exit(f"bench: there is no work {work}: --help lists them")


def replies(command: list[str], lines: list[str]) -> list[str]:
    """Returns what a program answers to these lines, and what is after its last answer."""
    text = "\n".join(lines + ["quit"]) + "\n"
    done = subprocess.run(command, input=text, stdout=subprocess.PIPE, check=True, encoding="ascii")
    return done.stdout.split("\n\n")


def plays_of(engines: list[str], size: int, half: bool) -> list[str]:
    """Returns the plays that make the position: none, or half as many as there are points."""
    if not half:
        return []
    points = [letter + str(row) for letter in LETTERS[:size] for row in range(1, size + 1)]
    random.Random(1).shuffle(points)
    tried = [f"play {'bw'[number % 2]} {point}" for number, point in enumerate(points)]
    start = [f"boardsize {size}", "clear_board"]
    answers = replies(engines[0].split(), start + tried)[2:]
    taken = [play for play, answer in zip(tried, answers) if answer.startswith("=")]
    plays = taken[: size * size // 2]
    for engine in engines:
        answers = replies(with_book(engine, size, plays), start + plays)[:-1]
        if not all(answer.startswith("=") for answer in answers):
            sys.exit(f"bench: {engine} refuses a play of the position")
    return plays


def free_point(size: int, plays: list[str]) -> str:
    """Returns the first point that no play names."""
    named = {play.split()[2] for play in plays}
    points = (f"{letter}{row}" for letter in LETTERS[:size] for row in range(1, size + 1))
    return next(point for point in points if point not in named)


def with_book(engine: str, size: int, plays: list[str]) -> list[str]:
    """Returns an engine's command, with a book whose entry for the position is a free point."""
    return engine.replace("{book}", "," * len(plays) + free_point(size, plays)).split()


def with_path(engine: str) -> str:
    """Returns an engine's command with the path of its program, in PATH or where games are.

    One of our own is built first where a source of it is newer.
    """
    words = engine.split()
    if not words:
        sys.exit("bench: an ENGINE has no command: give a command line")
    if TOP / "bin" in Path(words[0]).resolve().parents:
        subprocess.run([TOP / "build", "--needed"], check=True)
    program = shutil.which(words[0]) or shutil.which(words[0], path=GAMES)
    if program is None:
        sys.exit(
            f"bench: there is no program {words[0]}: ./build makes ours, "
            "and Debian has the packages gnugo and leela-zero"
        )
    return " ".join([program if "/" not in words[0] else words[0], *words[1:]])


def encoded(lines: list[str]) -> list[bytes]:
    """Returns the bytes of lines."""
    return [f"{line}\n".encode() for line in lines]


class Program:
    """A running program, which ends each answer with these bytes."""

    def __init__(self, command: list[str], mark: bytes) -> None:
        self.process = subprocess.Popen(command, stdin=subprocess.PIPE, stdout=subprocess.PIPE)
        assert self.process.stdin and self.process.stdout
        self.input, self.output = self.process.stdin, self.process.stdout
        self.name = command[0]
        self.mark = mark
        self.last = b""  # what was read after the last answer

    def send(self, text: bytes) -> None:
        at = 0
        while at < len(text):
            at += os.write(self.input.fileno(), text[at : at + 65536])

    def await_answers(self, count: int) -> None:
        answers = 0
        while answers < count:
            piece = os.read(self.output.fileno(), 65536)
            if not piece:
                sys.exit(f"bench: {self.name} ended after {answers} answers")
            text = self.last + piece
            answers += text.count(self.mark)
            # the last byte may be the first of a mark
            is_part = len(self.mark) > 1 and not text.endswith(self.mark)
            self.last = text[-1:] if is_part else b""

    def ask(self, lines: list[bytes]) -> float:
        """Sends lines one at a time, each after the answer to the one before.

        Returns the seconds that this took.
        """
        start = time.perf_counter()
        for line in lines:
            self.send(line)
            self.await_answers(1)
        return time.perf_counter() - start

    def ask_at_once(self, lines: list[bytes]) -> float:
        """Sends lines in one burst, and returns the seconds until the last answer."""
        text = b"".join(lines)
        start = time.perf_counter()
        sender = threading.Thread(target=self.send, args=(text,))
        sender.start()
        self.await_answers(len(lines))
        sender.join()
        return time.perf_counter() - start

    def peak_kilobytes(self) -> int:
        with open(f"/proc/{self.process.pid}/status", encoding="ascii") as status:
            for line in status:
                if line.startswith("VmHWM:"):
                    return int(line.split()[1])
        return 0

    def end(self) -> None:
        self.input.close()
        self.output.close()
        self.process.kill()
        self.process.wait()


# ---- many commands


class Run(NamedTuple):
    """The seconds until the last answer, and the peak of the memory in kB."""

    seconds: float
    peak: int


def measure(command: list[str], mark: bytes, lines: Lines, singly: bool) -> Run:
    """Runs a program that is asked these lines."""
    program = Program(command, mark)
    program.ask(encoded(lines.before))
    measured = encoded(lines.measured)
    seconds = program.ask(measured) if singly else program.ask_at_once(measured)
    run = Run(seconds, program.peak_kilobytes())
    program.end()
    return run


class Row(NamedTuple):
    """A program that is measured, and the bytes that end each of its answers."""

    name: str
    command: List[str]
    mark: bytes


def compare_works(options: argparse.Namespace) -> None:
    """Measures a work of many commands, for each program in turn, and prints a line for each."""
    half = options.half and options.work == "deep"
    lines = lines_of(options.work, options.count, plays_of(options.engines, 19, half))
    rows = [Row(engine, engine.split(), b"\n\n") for engine in options.engines]
    best: Dict[str, Run] = {}
    with tempfile.TemporaryDirectory() as folder:
        if options.work == "name":
            copy = os.path.join(folder, "copy")
            subprocess.run(["cc", "-O2", "-o", copy, HERE / "copy.c"], check=True)
            rows.insert(0, Row("copy (the limit)", [copy], b"\n"))
        for _ in range(options.rounds):
            for name, command, mark in rows:
                run = measure(command, mark, lines, options.singly)
                best[name] = min(best.get(name, run), run)
    count, way = len(lines.measured), "one at a time" if options.singly else "in one burst"
    print(f"{options.work}: {count} commands {way}, the best of {options.rounds} rounds")
    for name, run in best.items():
        ratio = run.seconds / best[rows[0].name].seconds
        print(
            f"{name}: {count / run.seconds:,.0f} a second, "
            f"{ratio:.2f} times the first's time, peak {run.peak} kB"
        )


# ---- one command in a position


class Answer(NamedTuple):
    """What one command took."""

    seconds: float
    timed: int  # how many commands were
    peak: int  # of the memory, in kB


def seconds_of(program: Program, command: bytes, between: list[bytes], count: int) -> float:
    """Returns the seconds of so many commands, without those of the commands between them.

    They are sent one at a time where there are some between them, and else in one burst.
    """
    if not between:
        return program.ask_at_once([command] * count)
    seconds = 0.0
    for _ in range(count):
        seconds += program.ask([command])
        program.ask(between)
    return seconds


def measure_position(
    words: list[str], before: list[str], command: bytes, between: list[bytes], most: int
) -> Answer:
    """Measures a command after these lines, as often as takes some time, `most` times at most."""
    program = Program(words, b"\n\n")
    program.ask(encoded(before))
    count, seconds = 1, seconds_of(program, command, between, 1)
    if seconds < SECONDS:
        seconds = seconds_of(program, command, between, count)
        while count < most and seconds < SECONDS / 4:
            count = min(most, 4 * count)
            seconds = seconds_of(program, command, between, count)
    answer = Answer(seconds / count, count, program.peak_kilobytes())
    program.end()
    return answer


def compare_positions(options: argparse.Namespace) -> None:
    """Measures a command in a position, for each program in turn, and prints a line for each."""
    size, command = options.size, f"{POSITION_WORKS[options.work]}\n".encode()
    plays = plays_of(options.engines, size, options.half)
    before = [f"boardsize {size}", "clear_board"] + plays
    free = free_point(size, plays)
    between = encoded([it.replace("{free}", free) for it in BETWEEN.get(options.work, [])])
    best: Dict[str, Answer] = {}
    for _ in range(options.rounds):
        for engine in options.engines:
            words = with_book(engine, size, plays)
            answer = measure_position(words, before, command, between, options.count)
            best[engine] = min(best.get(engine, answer), answer)
    first = best[options.engines[0]].seconds
    print(
        f"{options.work} on {size}x{size} with {len(plays)} plays, "
        f"the best of {options.rounds} rounds"
    )
    for engine, (seconds, timed, peak) in best.items():
        print(
            f"{engine}: {seconds * 1e6:,.1f} microseconds each of {timed:,}, "
            f"{seconds / first:,.2f} times the first's time, peak {peak} kB"
        )


def main() -> None:
    parser = argparse.ArgumentParser(
        description=__doc__, formatter_class=argparse.RawDescriptionHelpFormatter
    )
    parser.add_argument("--work", default="name")
    parser.add_argument("--size", type=int, default=19, choices=range(5, 26))
    parser.add_argument("--half", action="store_true")
    parser.add_argument("--count", type=int, default=20_100)
    parser.add_argument("--rounds", type=int, default=5)
    parser.add_argument("--singly", action="store_true")
    parser.add_argument("engines", nargs="+", metavar="ENGINE")
    options = parser.parse_args()
    options.engines = [with_path(engine) for engine in options.engines]
    if options.work == "name" and shutil.which("cc") is None:
        sys.exit(
            "bench: there is no cc, which compiles the limit of this work, bench/commands/copy.c "
            "(apt-get install gcc libc6-dev)"
        )
    if options.work in POSITION_WORKS:
        compare_positions(options)
    else:
        compare_works(options)


if __name__ == "__main__":
    main()
