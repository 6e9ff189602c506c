"""Each promise is said in words where it is made.

A promise is a law, or a clause of a public function, and the comment above says it in words.
"""
from __future__ import annotations

import re

import pytest

from .parts.promises import functions_of, promises_of, promising_crates, unknown_words

each_crate = pytest.mark.parametrize("crate", promising_crates())


@each_crate
def test_each_law_and_contract_has_a_comment(crate: str) -> None:
    assert [it.path for it in promises_of(crate) if not re.search(r"\w\w", it.comment)] == []


@each_crate
def test_what_a_comment_names_is_in_a_source(crate: str) -> None:
    unknown = {it.path: unknown_words(it.comment) for it in functions_of(crate)}
    assert {path: words for path, words in unknown.items() if words} == {}
