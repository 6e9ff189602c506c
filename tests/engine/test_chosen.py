"""What the reference makes of the output of an engine that makes its own choices."""
from __future__ import annotations

import pytest

from tests.references.engine.chosen import Wrong, anything, examine, no_own_eye

# Black has A1 and B2 of four points: the others are eyes of Black, and suicide for White.
COMMANDS = b"boardsize 2\nplay b A1\nplay b B2\n1 genmove b\ngenmove w\nkomi x\n"
RIGHT = b"=\n\n=\n\n=\n\n=1 pass\n\n= pass\n\n? syntax error\n\n"
# Black may fill an eye where the engine's rule allows that, and White takes all by the other eye.
EYES = b"=\n\n=\n\n=\n\n=1 A2\n\n= B1\n\n? syntax error\n\n"
# What is wrong in place of a part of the right output.
CHANGES = [
    *((b"=1 pass", answer) for answer in [b"=1 A2", b"=1 A1", b"=1 C3", b"=1 I1", b"=1 PASS"]),
    *((b"=1 pass", answer) for answer in [b"=1 resign", b"=2 pass", b"= pass", b"?1 pass"]),
    (b"= pass", b"= A2"),
    (b"= pass\n\n", b""),
    (b"= pass\n\n", b"= pass\n\n\n"),
    (b"= pass\n\n", b"= pass\n\n= pass\n\n"),
    (b"?", b"="),
    (b"x e", b"x  e"),
]
WRONG = [RIGHT.replace(*change) for change in CHANGES] + [RIGHT + b"=\n\n", RIGHT[:-1], b""]


def test_right_output() -> None:
    examine(RIGHT, COMMANDS, "", "", no_own_eye)


@pytest.mark.parametrize("output", [RIGHT, EYES])
def test_right_output_where_any_choice_is_allowed(output: bytes) -> None:
    examine(output, COMMANDS, "", "", anything)


@pytest.mark.parametrize("output", [*WRONG, EYES])
def test_wrong_output(output: bytes) -> None:
    with pytest.raises(Wrong):
        examine(output, COMMANDS, "", "", no_own_eye)
