"""The right engine that all engines here are made of, and how an engine is run."""
from __future__ import annotations

import re
import sys
from random import Random
from typing import Dict, List, NoReturn, Type

from tests.references.engine.engine import Engine
from tests.references.engine.game import KoRule
from tests.references.engine.policies import candidates
from tests.references.engine.values import PASS, Colour, Vertex


class Chance:
    """The policy that draws one of the candidates, or passes where there is none."""

    def __init__(self, seed: int) -> None:
        self.random = Random(seed)

    def choose(self, game: Engine, colour: Colour) -> Vertex:
        found = candidates(game, colour)
        return found[int(self.random.random() * len(found))] if found else PASS


class Plain(Engine):
    """The right engine: the reference (tests/references/engine) by another name."""

    own_name = "plain"
    own_version = "1"
    policy: Chance

    @property
    def random(self) -> Random:
        """Returns the generator by which the engine draws."""
        return self.policy.random


def run(kind: Type[Plain], words: List[str], usage: str) -> None:
    """Runs an engine of this kind with these options, or prints the usage where one is wrong."""
    options = {"--ko": "simple", "--seed": "1", **dict(zip(words[::2], words[1::2]))}
    if (
        len(words) % 2
        or len(options) > 2
        or options["--ko"] not in list(KoRule)
        or not options["--seed"].isdecimal()
    ):
        fail(usage)
    try:
        kind(Chance(int(options["--seed"])), KoRule(options["--ko"])).run()
    except BrokenPipeError:
        sys.exit(3)


def run_named(kinds: Dict[str, Type[Plain]], usage: str) -> None:
    """Runs the engine that the first argument names, or prints a line for each of them."""
    name, *words = sys.argv[1:] or fail(usage)
    if name == "--list":
        width = max(map(len, kinds))
        for known, kind in kinds.items():
            print(f"{known:{width}} {summary(kind)}")
    elif name in kinds:
        run(kinds[name], words, usage)
    else:
        fail(usage)


def fail(usage: str) -> NoReturn:
    """Prints the usage, and ends with status 2."""
    print(usage.rstrip(), file=sys.stderr)
    sys.exit(2)


def summary(kind: type) -> str:
    """Returns the first paragraph of a docstring, in one line."""
    return " ".join((kind.__doc__ or "").partition("\n\n")[0].split())


def snake_case(name: str) -> str:
    """Returns the name of a class as that of a function: `NoKo` is no_ko."""
    return re.sub("(?<=[A-Za-z0-9])(?=[A-Z])|(?<=[a-z])(?=[0-9])", "_", name).lower()
