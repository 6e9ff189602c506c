"""An engine that is told of its clock, and what is sent to it."""
from __future__ import annotations

import subprocess
import sys
from typing import List

from .notes import Between
from .runner import Done, Runner

# It has the commands of the first argument, and plays the moves of the others. It crashes or hangs
# where they say that, and begins with the next one at its next start. What it reads is in `heard`.
ENGINE = f"""\
#!{sys.executable}
import os, sys, time
known, moves = sys.argv[1].split(","), sys.argv[2:]
heard = open("heard", "a", buffering=1)
for line in sys.stdin:
    heard.write(line)
    words = line.split()
    number = words.pop(0) if words[0].isdigit() else ""
    text, sign = "", "="
    if words[0] == "list_commands":
        text, sign = chr(10).join(known), "?" if known == ["?"] else "="
    elif words[0] == "genmove":
        with open("asked", "a") as asked:
            asked.write(".")
        text = moves[os.stat("asked").st_size - 1]
        if text == "crash":
            sys.exit(3)
        if text == "hang":
            time.sleep(1000)
    print(f"{{sign}}{{number}} {{text}}", end=chr(10) * 2, flush=True)
    if words[0] == "quit":
        break
"""
ALL = "time_settings,kgs-time_settings,kata-time_settings,time_left"
PLAIN = "time_settings,time_left"


def begin(runner: Runner, known: str, moves: str, notes: str = "", **more: object) -> Between:
    """Returns `between` with an engine of such commands and moves, in a game with these notes."""
    between = Between(runner, runner.script("engine", ENGINE), known, *moves.split(), **more)
    between.place.write_text(f"a game\n{notes}")
    return between


def talk(between: Between, commands: str) -> Done:
    """Sends commands as twogtp does, each behind the answer to the one before, until the engine has
    ended. Returns what comes of that."""
    process, answers = between.start(), ""
    assert process.stdin and process.stdout and process.stderr
    for command in commands.split(", "):
        process.stdin.write(f"{command}\n")
        process.stdin.flush()
        answers += answer(process)
    answers += process.stdout.read()
    return Done(process.wait(), answers, process.stderr.read())


def answer(process: subprocess.Popen[str]) -> str:
    """Returns the next answer, up to its empty line or the end of all."""
    assert process.stdout
    text = ""
    for line in process.stdout:
        text += line
        if line == "\n":
            break
    return text


def heard(runner: Runner) -> List[str]:
    """Returns what the engine has read."""
    return (runner.folder / "heard").read_text().splitlines()


BEGIN = "1 boardsize 9, 2 komi 7, 3 clear_board"
ONE_MOVE = f"{BEGIN}, 4 genmove b, 5 quit"
