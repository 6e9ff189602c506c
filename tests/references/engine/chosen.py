"""Compares an engine that makes its own choices with the reference, on random conversations.

The reference takes each choice from what the engine wrote. A choice has to be lawful, and allowed
by the engine's own rule. All else that the engine writes has to be what the reference writes.
"""
from __future__ import annotations

import contextlib
import re
import subprocess
import tempfile
from pathlib import Path
from random import Random
from typing import Callable, Sequence

from tests.shared.processes import process_tree

from . import conversations, engine, policies, values
from .conversations import KINDS
from .game import Game
from .values import PASS, RESIGN, Choice, Colour

REPLY = re.compile(rb"=[0-9]* ([^\n]*)\n\n")

# What an engine's own rule allows: of a game, a colour, and its lawful choice.
Allowed = Callable[[engine.Engine, Colour, Choice], bool]


class Wrong(Exception):
    """What the engine wrote, though it may not."""


class Chosen:
    """The policy that takes its choice from what the engine wrote."""

    def __init__(self, output: bytes, allowed: Allowed) -> None:
        self.output = output
        self.allowed = allowed
        self.place = 0  # where the next reply begins

    def choose(self, game: engine.Engine, colour: Colour) -> Choice:
        """Returns the choice that the engine made, where that is lawful and allowed."""
        reply = REPLY.match(self.output, self.place)
        choice = policies.read_entry(reply[1]) if reply else None
        if choice is None:
            start = self.output[self.place : self.place + 40]
            raise Wrong(f"a genmove is answered by {start!r}")
        if not is_lawful(game, colour, choice):
            raise Wrong(f"{colour} chose {written(choice)}, which isn't lawful")
        if not self.allowed(game, colour, choice):
            raise Wrong(f"{colour} chose {written(choice)}, which the engine's own rule forbids")
        return choice


def is_lawful(game: Game, colour: Colour, choice: Choice) -> bool:
    """Returns whether this is a resignation or a legal vertex."""
    return choice is RESIGN or game.is_legal(colour, choice)


def written(choice: Choice) -> str:
    """Returns a choice as a text."""
    return "resign" if choice is RESIGN else values.write_vertex(choice).decode()


def no_own_eye(game: engine.Engine, colour: Colour, choice: Choice) -> bool:
    """Returns whether the rule of the examples allows a choice.

    It allows legal points that aren't surrounded by the colour's own stones, and a pass where there
    is none.
    """
    if isinstance(choice, tuple):
        return game.is_candidate(colour, choice)
    return choice == PASS and not policies.candidates(game, colour)


def anything(game: engine.Engine, colour: Colour, choice: Choice) -> bool:
    """Allows each lawful choice."""
    return True


def examine(output: bytes, data: bytes, name: str, version: str, allowed: Allowed) -> None:
    """Raises Wrong where an engine of this name may not write this output to this input."""
    policy = Chosen(output, allowed)
    reference = engine.Engine(policy)
    reference.own_name, reference.own_version = name, version
    for line in data.split(b"\n")[:-1]:
        reply = reference.feed(line + b"\n")
        got = output[policy.place : policy.place + len(reply)]
        if got != reply:
            raise Wrong(f"the reply to {line[:80]!r} is {got[:80]!r}, and not {reply[:80]!r}")
        policy.place += len(reply)
    if policy.place != len(output):
        raise Wrong(f"after all replies it wrote {output[policy.place:policy.place + 80]!r}")


def output_of(command: Sequence[str], data: bytes, rng: Random) -> bytes:
    """Returns what an engine writes that is given this input, at once or in random pieces."""
    longest = rng.choice([0, 0, 3, 200]) if len(data) < 20000 else 0
    with tempfile.TemporaryFile() as output, tempfile.TemporaryFile() as errors:
        with process_tree(
            command, bufsize=0, stdin=subprocess.PIPE, stdout=output, stderr=errors
        ) as process:
            assert process.stdin is not None
            # an engine may end before it has read what comes after a quit
            with contextlib.suppress(BrokenPipeError):
                place = 0
                while place < len(data):
                    end = place + (rng.randint(1, longest) if longest else len(data))
                    place += process.stdin.write(data[place:end])
            with contextlib.suppress(BrokenPipeError):
                process.stdin.close()
            status = process.wait()
        output.seek(0)
        errors.seek(0)
        said = errors.read(200)
        if status != 0 or said:
            raise Wrong(f"it ended with status {status} and wrote {said!r} to its standard error")
        return output.read()


def failures(
    command: Sequence[str],
    kind: str,
    count: int,
    seed: object,
    name: str = "stepgo",
    version: str = "1.0",
    allowed: Allowed = no_own_eye,
) -> list[str]:
    """Returns what is wrong in so many conversations of this kind, with the file of the input."""
    wrong = []
    for number in range(count):
        seed_of_this = f"{seed} {kind} {number}"
        data = conversations.conversation(kind, seed_of_this).data
        try:
            examine(output_of(command, data, Random(seed_of_this)), data, name, version, allowed)
        except Wrong as what:
            file = Path(tempfile.mkdtemp(prefix="chosen-")) / "input"
            file.write_bytes(data)
            wrong.append(f"{what}; the input is {file}")
    return wrong


def counted(kind: str, count: int) -> int:
    """Returns how many conversations of this kind there are where a quick kind has so many."""
    return max(1, count // KINDS[kind].one_in)
