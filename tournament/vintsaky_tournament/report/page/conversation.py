"""A conversation of GTP commands as games for the viewer, such as a block of gtp_check.

Replies may stand between the commands. Of a move whose reply isn't there the rules say whether it
is refused. A comment `# = D4` has the move that a genmove chose, and `# it wrote:` the last reply.
"""
from __future__ import annotations

import re
from typing import Iterator, NamedTuple, Sequence

from ...config.rules import BLACK, PASS, WHITE, as_vertex, handicap_points
from ...model import Side
from ...output import Mistake
from .shown import Position, Shown, Step, is_on_board, point_of, side_of

COMMAND = re.compile(r"\s*([0-9]+)?\s*([A-Za-z][\w-]*)((?:\s+[^\s#]+)*)\s*(?:#.*)?")
REPLY = re.compile(r"\s*([=?])([0-9]*)[ \t]*(.*)")
CHOSEN = re.compile(r"#\s*=\s*(\S+)\s*")
WROTE = re.compile(r'#\s*it wrote: "([=?])[0-9]* ?(.*?)(?:\\n)*"\s*')
BLOCK = re.compile(r'#\s*[0-9]+ (\w+): "(.*)": (.*)')
AHEAD = "# asked before this answer was read:"
DRAWN = re.compile(r"#( [.XO+])+ [0-9]{1,2}|#( [A-HJ-Z])+|# captures B .*")
KNOWN = frozenset(
    "boardsize clear_board komi play genmove undo fixed_handicap place_free_handicap"
    " set_free_handicap".split()
)
MOST_SIZE = 25


class Reply(NamedTuple):
    """A reply: whether the command was refused, and the text."""

    is_failure: bool
    text: str


class Command:
    """A command, with its reply and the comments behind it."""

    def __init__(self, number: str, name: str, words: Sequence[str]) -> None:
        self.number, self.name, self.words = number, name, list(words)
        self.reply: Reply | None = None
        self.comments: list[str] = []

    @property
    def text(self) -> str:
        """Returns the command as it was written."""
        return " ".join([*([self.number] if self.number else []), self.name, *self.words])


class Block(NamedTuple):
    """The commands of a game, and what is said of them."""

    title: str
    commands: list[Command]


def blocks_of(text: str) -> list[Block]:
    """Returns the commands of each block, or of the whole text."""
    blocks, is_ahead = [Block("", [])], False
    for line in text.splitlines():
        head = BLOCK.fullmatch(line.strip())
        if head:
            blocks.append(Block(f"{head[1]}: {head[2]}: {head[3]}", []))
            is_ahead = False
        elif line.strip() == AHEAD:
            is_ahead = True
        elif not is_ahead:
            add_line(blocks[-1].commands, line)
    return [block for block in blocks if any(each.name in KNOWN for each in block.commands)]


def add_line(commands: list[Command], line: str) -> None:
    """Adds a line: a command, a reply, or a comment."""
    reply, command = REPLY.fullmatch(line), COMMAND.fullmatch(line)
    chosen, wrote = CHOSEN.fullmatch(line), WROTE.fullmatch(line)
    if reply:
        for waiting in commands:
            if waiting.reply is None and reply[2] in ("", waiting.number):
                waiting.reply = Reply(reply[1] == "?", reply[3].strip())
                break
    elif command:
        commands.append(Command(command[1] or "", command[2], command[3].split()))
    elif commands and chosen:
        commands[-1].reply = Reply(False, chosen[1])
    elif commands and wrote:
        commands[-1].reply = Reply(wrote[1] == "?", wrote[2])
    elif commands and line.startswith("#") and not DRAWN.fullmatch(line):
        commands[-1].comments.append(line.lstrip("# "))


def of_conversation(text: str, size: int, komi: str, ko: str) -> Iterator[Shown]:
    """Yields the games of a text with commands."""
    for number, block in enumerate(blocks_of(text), 1):
        yield Game(size, komi, ko).shown(block, number)


def size_in(commands: Sequence[Command]) -> int | None:
    """Returns the size of the board on which commands begin; None where they don't say it."""
    for command in commands:
        if command.name == "boardsize" and command.words and command.words[0].isdigit():
            size = int(command.words[0])
            return size if 1 <= size <= MOST_SIZE else None
        if command.name in ("play", "genmove"):
            break
    return None


def most_stones(size: int) -> int:
    """Returns the largest handicap that a board of this size has."""
    return 0 if size < 7 else 9 if size > 7 and size % 2 else 4


class Game:
    """A game that follows the commands of a block."""

    def __init__(self, size: int, komi: str, ko: str) -> None:
        self.size, self.komi = size, komi
        self.position = Position(size, ko)

    def shown(self, block: Block, number: int) -> Shown:
        """Returns the game."""
        self.size = size_in(block.commands) or self.size
        self.position.clear(self.size)
        steps = [step for command in block.commands for step in self.steps_of(command)]
        title = block.title or "a conversation"
        return Shown(
            name=f"game-{number}",
            title=title,
            engines=["Black", "White"],
            size=self.size,
            komi=self.komi,
            handicap=0,
            black=[],
            white=[],
            first=BLACK,
            steps=steps,
            ended=title if block.title else "",
            result="",
        )

    def steps_of(self, command: Command) -> Iterator[Step]:
        """Yields the step of a command, if it has to do with the board."""
        if command.name not in KNOWN:
            return
        refused = command.reply is not None and command.reply.is_failure
        step = self.refused(command) if refused else self.step_of(command)
        texts = [step.pop("text", ""), *command.comments]
        if command.reply and command.reply.is_failure:
            texts.insert(0, f"the reply: {command.reply.text}")
        step["text"] = "\n".join(text for text in texts if text)
        yield {**step, "name": command.text}

    def refused(self, command: Command) -> Step:
        """Returns the step of a command that failed. A move is marked."""
        side, vertex = self.move_of(command)
        if command.name != "play" or side is None or vertex is None:
            return {}
        return {"side": side + 1, "move": point_of(vertex, self.position.size), "refused": True}

    def move_of(self, command: Command) -> tuple[Side | None, str | None]:
        """Returns the side and the vertex of a play, or of a genmove whose answer is there."""
        side = side_of(command.words[0]) if command.words else None
        words = command.words[1:2]
        if command.name == "genmove":
            words = [command.reply.text] if command.reply else []
        vertex = as_vertex(words[0]) if words else None
        if vertex is not None and not is_on_board(vertex, self.position.size):
            vertex = None
        return side, vertex

    def step_of(self, command: Command) -> Step:
        """Returns the step of a command that didn't fail."""
        if command.name in ("play", "genmove"):
            return self.of_move(command)
        if command.name == "undo":
            return {"undo": True} if self.position.undo() else {"text": "nothing to take back"}
        if command.name == "komi":
            self.komi = command.words[0] if command.words else self.komi
            return {}
        return self.of_board(command)

    def of_move(self, command: Command) -> Step:
        """Returns the step of a move. Without a reply the rules say whether it is refused."""
        side, vertex = self.move_of(command)
        said = command.reply.text if command.name == "genmove" and command.reply else ""
        if side is None or vertex is None:
            return {"text": f"the answer: {said}" if said else "no move"}
        move = {"side": side + 1, "move": point_of(vertex, self.position.size)}
        broken = self.position.play(side, vertex)
        text = [f"the answer: {said}"] if said else []
        if broken:
            return {**move, "refused": True, "text": "\n".join([*text, f"by the rules {broken}"])}
        return {**move, "text": "\n".join(text)}

    def of_board(self, command: Command) -> Step:
        """Returns the step of a command that makes a new board."""
        position, words = self.position, command.words
        if command.name == "boardsize":
            size = int(words[0]) if words and words[0].isdigit() else 0
            if not 1 <= size <= MOST_SIZE:
                raise Mistake(f"'{command.text}' has no size from 1 to {MOST_SIZE}")
            position.clear(size)
        elif command.name == "clear_board":
            position.clear()
        else:
            stones = self.handicap(command)
            if not stones:
                return {"text": "no such handicap on this board"}
            position.put(BLACK, stones)
            position.first = WHITE
        return position.as_step("")

    def handicap(self, command: Command) -> list[int]:
        """Returns the points of handicap stones: those that are named, or those of their number."""
        size, words = self.position.size, command.words
        if command.name != "set_free_handicap" and command.reply and command.reply.text:
            words = command.reply.text.split()
        vertices = [as_vertex(word) for word in words]
        named = [vertex for vertex in vertices if vertex and vertex != PASS]
        if named:
            return [point_of(vertex, size) for vertex in named if is_on_board(vertex, size)]
        stones = int(words[0]) if words and words[0].isdigit() else 0
        if not 2 <= stones <= most_stones(size):
            return []
        return [(row - 1) * size + column - 1 for column, row in handicap_points(size, stones)]
