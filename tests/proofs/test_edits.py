"""Each edit that the checker has to refuse still applies: what it changes is in its file once.

`tests/proofs/try_edits` tries the edits.
"""
from __future__ import annotations

import pytest

from .parts.edits import all_edits, applied

EDITS = all_edits()


@pytest.mark.parametrize("crate", EDITS)
def test_each_edit_applies(crate: str) -> None:
    assert [edit.name for edit in EDITS[crate] if applied({}, edit) is None] == []
