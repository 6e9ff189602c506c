#!/usr/bin/env python3
"""A tournament program: plays two engines against each other, with the library's controller.

usage: play_match.py SIZE HALF_KOMI BLACK WHITE
"""
import subprocess
import sys
from typing import Any, Dict

from vintsaky import BLACK, WHITE, Colour, Match, Next

PIPE = subprocess.PIPE
processes: Dict[Colour, Any] = {}


def end(side: Colour) -> None:
    """Ends a side's engine, if there is one."""
    if side in processes:
        with processes.pop(side) as process:
            try:
                process.communicate(b"quit\n", 5)
            except subprocess.TimeoutExpired:
                process.kill()


def take_turn(match: Match, kind: Next, side: Colour, command: str) -> None:
    """Does what is next. Raises OSError or EOFError if the side is gone."""
    if kind is Next.START:
        end(side)
        match.started(side)
        processes[side] = subprocess.Popen(command.split(), bufsize=0, stdin=PIPE, stdout=PIPE)
    elif kind is Next.SEND:
        processes[side].stdin.write(match.send(side))
    elif written := processes[side].stdout.read(4096):
        match.hear(side, written)
    else:
        raise EOFError


def play(match: Match, commands: Dict[Colour, str]) -> str:
    """Plays the match. Returns its result line."""
    while (action := match.next()).side is not None:
        try:
            take_turn(match, action.kind, action.side, commands[action.side])
        except (OSError, EOFError):
            match.lost(action.side)
    return match.result()


if __name__ == "__main__":
    try:
        size, half_komi, black, white = sys.argv[1:]
        if not black.split() or not white.split():
            raise ValueError("a command has no word")
        match = Match(int(size), int(half_komi) / 2, max_moves=1000, max_restarts=2)
    except ValueError as problem:
        sys.exit(f"play_match: {problem}; usage: play_match.py SIZE HALF_KOMI BLACK WHITE")
    print(play(match, {BLACK: black, WHITE: white}))
    end(BLACK)
    end(WHITE)
