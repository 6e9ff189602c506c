"""The sentences of the errors in the code, in a definition and in the Rust crate.

They are written by the comments of the variants of Cause. In the code and the definition of the
call that writes them only the rows change.
"""
from __future__ import annotations

import re
from typing import Iterable, Pattern

from . import numbers
from .numbers import Cause
from .texts import Files, Mistake

CODE = "crates/vintsaky_calls/src/library.rt"
DEFINITION = "crates/vintsaky_calls/specs/Library.antt"
RUST = "library/rust/src/refusal/causes.rs"
CODE_WIDTH = 100
DEFINITION_WIDTH = 120
CODE_ROWS = re.compile(
    r'(?<=^    match cause \{\n)(?:        Cause::\w+ =>\s+b"[^"\n]*",\n)+', re.MULTILINE
)
DEFINITION_ROWS = re.compile(
    r'(?<=^abbrev pub sentence : Cause → List ℕ\n)(?:sentence cause\.\w+ =\s+codes "[^"\n]*"\n)+',
    re.MULTILINE,
)
HEAD_OF_RUST = """\
//! The errors: the name and the number of each, and its meaning to users of this crate.
//!
//! `library/declare` writes this file.

causes! {
"""
# Errors that the Rust crate explains otherwise. None of its calls returns these, since its types
# rule them out.
NEVER = ("BadColour", "BadVertex", "BadRule", "NoRoom", "BadCommand")
OTHERWISE = {
    "NoId": "The line has no id.",
    "NoLine": "No command line was read.",
    "BadId": "The id must be at most 2,147,483,647.",
}


def row(front: str, back: str, gap: str, width: int) -> str:
    """Returns a row in a line, or in two where that is too long."""
    return f"{front} {back}" if len(f"{front} {back}") <= width else f"{front}\n{gap}{back}"


def with_rows(path: str, rows: Iterable[str], pattern: Pattern[str], files: Files) -> str:
    """Returns a source with these rows in place of those that it has."""
    text = numbers.text_of(files, path)
    if len(pattern.findall(text)) != 1:
        raise Mistake(f"{path}: the rows of the sentences are not found")
    return pattern.sub(lambda _: "".join(f"{it}\n" for it in rows), text)


def code(files: Files) -> str:
    """Returns the code of the sentences."""
    rows = [
        row(f"        Cause::{it.name} =>", f'b"{it.sentence}",', " " * 12, CODE_WIDTH)
        for it in numbers.causes_of(files)
    ]
    return with_rows(CODE, rows, CODE_ROWS, files)


def definition(files: Files) -> str:
    """Returns the definition of the sentences."""
    rows = [
        row(f"sentence cause.{it.name} =", f'codes "{it.sentence}"', "    ", DEFINITION_WIDTH)
        for it in numbers.causes_of(files)
    ]
    return with_rows(DEFINITION, rows, DEFINITION_ROWS, files)


def meaning(cause: Cause) -> str:
    """Returns the meaning of an error in Rust."""
    if cause.name in NEVER:
        return f"{cause.comment.partition(':')[0].rstrip('.')}. No call of this crate returns it."
    return OTHERWISE.get(cause.name, cause.comment)


def rust(files: Files) -> str:
    """Returns the rows of the Rust crate."""
    causes = numbers.causes_of(files)
    gone = ", ".join(sorted({*NEVER, *OTHERWISE} - {it.name for it in causes}))
    if gone:
        explained = "of which library/declaring/sentences.py says more"
        raise Mistake(f"{numbers.CAUSES}: no cause is called {gone}, {explained}")
    rows = "".join(f'    {it.name} = {it.number} "{meaning(it)}",\n' for it in causes)
    return f"{HEAD_OF_RUST}{rows}}}\n"
