"""Conversations worked out by hand: the reference and the engine both give their replies."""
from __future__ import annotations

from pathlib import Path

import pytest

from tests.references.engine import engine, worked
from tests.references.engine.worked import Worked

from .feeding import feed_at_once, feed_bytewise

CONVERSATIONS = worked.conversations()
STARTING = [row for row in CONVERSATIONS if row.result.status == 0]
each_worked = pytest.mark.parametrize("worked", CONVERSATIONS, ids=lambda row: row.name)


@each_worked
def test_reference_gives_the_replies(worked: Worked) -> None:
    assert engine.run(worked.options, worked.data) == worked.result


@pytest.mark.parametrize("worked", STARTING, ids=lambda row: row.name)
def test_reference_gives_the_replies_byte_after_byte(worked: Worked) -> None:
    reference = engine.start(worked.options)
    assert reference is not None
    output = b"".join(reference.feed(bytes([byte])) for byte in worked.data)
    assert output == worked.result.output


@each_worked
def test_engine_gives_the_replies(gtp_engine: Path, worked: Worked) -> None:
    assert feed_at_once(gtp_engine, worked.arguments, worked.data) == worked.result


@each_worked
def test_engine_gives_the_replies_byte_after_byte(gtp_engine: Path, worked: Worked) -> None:
    assert feed_bytewise(gtp_engine, worked.arguments, worked.data) == worked.result
