#!/usr/bin/env python3
"""A Go engine to start from: it moves at random, but not into its own eyes.

usage: engine.py [SEED]
"""
from __future__ import annotations

import random
import signal
import sys

COLUMNS = "ABCDEFGHJKLMNOPQRSTUVWXYZ"
COLOURS = {"b": "b", "black": "b", "w": "w", "white": "w"}
COMMANDS = (
    "protocol_version name version known_command list_commands quit boardsize clear_board komi play"
    " genmove fixed_handicap undo"
).split()
TEXTS = {
    "protocol_version": "2",
    "name": "sample",
    "version": "1",
    "list_commands": "\n".join(COMMANDS),
}


class Game:
    """A game on a board of this size, with its boards at first and after each move."""

    def __init__(self, size: int) -> None:
        if not 1 <= size <= 25:
            raise ValueError("unacceptable size")
        points = [(x, y) for x in range(size) for y in range(size)]
        self.size = size
        self.vertices = {(x, y): f"{COLUMNS[x]}{y + 1}" for x, y in points}
        self.neighbours = {
            self.vertices[x, y]: [
                self.vertices[point]
                for point in ((x - 1, y), (x + 1, y), (x, y - 1), (x, y + 1))
                if point in self.vertices
            ]
            for x, y in points
        }
        self.boards: list[dict[str, str]] = [{}]

    def dead_chain(self, board: dict[str, str], vertex: str) -> list[str]:
        """Returns the chain of the stone there; an empty list where it has a liberty."""
        chain = [vertex]
        for stone in chain:  # which grows
            if any(neighbour not in board for neighbour in self.neighbours[stone]):
                return []
            chain += [
                neighbour
                for neighbour in self.neighbours[stone]
                if board[neighbour] == board[vertex] and neighbour not in chain
            ]
        return chain

    def after(self, colour: str, vertex: str) -> dict[str, str] | None:
        """Returns the board after this play; None where it isn't legal."""
        if vertex not in self.neighbours or vertex in self.boards[-1]:
            return None
        board = {**self.boards[-1], vertex: colour}
        captured = {
            stone
            for neighbour in self.neighbours[vertex]
            if board.get(neighbour, colour) != colour
            for stone in self.dead_chain(board, neighbour)
        }
        for stone in captured:
            del board[stone]
        is_suicide, is_ko = self.dead_chain(board, vertex), board in self.boards[-2:-1]
        return None if is_suicide or is_ko else board

    def choose(self, colour: str) -> str:
        """Returns a legal vertex that isn't an eye of this colour, or a pass."""
        for vertex in random.sample(list(self.neighbours), len(self.neighbours)):
            is_eye = all(self.boards[-1].get(each) == colour for each in self.neighbours[vertex])
            if not is_eye and self.after(colour, vertex):
                return vertex
        return "PASS"

    def handicap(self, count: int) -> list[str]:
        """Returns the stones' points. Raises ValueError where the size doesn't allow so many."""
        size = self.size
        most = 0 if size < 7 else 9 if size > 7 and size % 2 else 4
        if self.boards != [{}]:
            raise ValueError("board not empty")
        if not 2 <= count <= most:
            raise ValueError("invalid number of stones")
        low, middle = 2 + size // 13, size // 2
        high = size - 1 - low
        corners = [(low, low), (high, high), (low, high), (high, low)]
        sides = [(low, middle), (high, middle), (middle, low), (middle, high)]
        has_middle = count > 4 and count % 2
        points = (corners + sides)[: count - has_middle] + [(middle, middle)] * has_middle
        return [self.vertices[point] for point in points]


class Engine:
    """The engine, with its game."""

    def __init__(self) -> None:
        self.game = Game(19)

    def answer(self, command: str, *words: str) -> str:
        """Returns the text of the reply. An exception is a failure."""
        if command in ("boardsize", "clear_board"):
            self.game = Game(int(words[0]) if command == "boardsize" else self.game.size)
        elif command == "fixed_handicap":
            stones = self.game.handicap(int(words[0]))
            self.game.boards = [{point: "b" for point in stones}]
            return " ".join(stones)
        elif command in ("play", "genmove"):
            return self.move(command, *words)
        elif command == "undo":
            if len(self.game.boards) == 1:
                raise ValueError("cannot undo")
            self.game.boards.pop()
        elif command == "komi":
            float(words[0])  # the moves don't depend on it
        elif command == "known_command":
            return "true" if words[0] in COMMANDS else "false"
        elif command not in COMMANDS:
            raise ValueError("unknown command")
        return TEXTS.get(command, "")

    def move(self, command: str, *words: str) -> str:
        """Makes a move, and returns the text of the reply."""
        game, colour = self.game, COLOURS[words[0].lower()]
        vertex = game.choose(colour) if command == "genmove" else words[1].upper()
        board = game.boards[-1] if vertex == "PASS" else game.after(colour, vertex)
        if board is None:
            raise ValueError("illegal move")
        game.boards.append(board)
        return vertex if command == "genmove" else ""

    def reply(self, words: list[str]) -> tuple[str, str]:
        """Returns the status and the text of the reply."""
        try:
            return "=", self.answer(*words)
        except Exception as problem:
            return "?", str(problem)


def serve(engine: Engine) -> None:
    """Answers each command of standard input, up to `quit`."""
    for line in sys.stdin.buffer:
        # without comment and control characters
        text = bytes(code for code in line.split(b"#")[0] if code == 9 or 31 < code != 127)
        words = text.decode("latin-1").split()
        number = words.pop(0) if words and words[0].isdigit() else ""
        if words:
            status, answer = engine.reply(words)
            print(f"{status}{number} {answer}\n", flush=True)
        if words == ["quit"]:
            break


for number in (signal.SIGPIPE, signal.SIGINT):
    # it ends quietly where nobody reads what it writes, and at Ctrl-C
    signal.signal(number, signal.SIG_DFL)
random.seed(sys.argv[-1])
serve(Engine())
