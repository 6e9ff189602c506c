"""Edits: wrong bodies of functions, each a few lines of a source that give way to others.

A file edits/CRATE.edits has the edits of a crate, in the order of its sources:

    src/lines.rt:

    the_last_byte_is_lost
      fn last(&self) -> u8 {
    -     self.bytes[self.len - 1]
    +     self.bytes[0]

After a file's name and a colon come its edits: a name, and below it lines of the source, which are
there once in this order, whatever their indentation. Those after two spaces stay, and those after
`- ` give way to those after `+ `.
"""
from __future__ import annotations

import re
from dataclasses import dataclass
from pathlib import Path
from typing import NamedTuple, Optional, Union

from .crates import TOP

FOLDER = TOP / "tests" / "proofs" / "edits"


class BadEdits(Exception):
    """A file of edits can't be read."""


class Changed(NamedTuple):
    """A text after a change, and the place of the change in the text before."""

    text: str
    place: int


@dataclass(frozen=True)
class Text:
    """A change as `rt ci` makes those of must-fail/: a text gives way to another."""

    file: str
    old: str
    new: str

    def apply(self, text: str) -> Optional[Changed]:
        """Returns the text with this change, or None where the old text isn't there once."""
        if not self.old or text.count(self.old) != 1:
            return None
        return Changed(text.replace(self.old, self.new), text.index(self.old))


@dataclass(frozen=True)
class Lines:
    """A change of whole lines: below the lines of `kept`, those of `old` give way to `new`."""

    file: str
    kept: tuple[str, ...]
    old: tuple[str, ...]
    new: tuple[str, ...]

    def apply(self, text: str) -> Optional[Changed]:
        """Returns the text with this change, or None where the lines aren't there once."""
        lines, wanted = text.split("\n"), [line.strip() for line in self.kept + self.old]
        bare = [line.strip() for line in lines]
        starts = [at for at in range(len(lines)) if bare[at : at + len(wanted)] == wanted]
        if len(starts) != 1 or not any(wanted):
            return None
        at = starts[0] + len(self.kept)
        before = "".join(line + "\n" for line in lines[:at])
        after = "\n".join([*lines[:at], *self.new, *lines[at + len(self.old) :]])
        return Changed(after, len(before))


@dataclass(frozen=True)
class Edit:
    """Changes of a crate that make a function wrong."""

    crate: str
    stem: str
    changes: tuple[Union[Text, Lines], ...]

    @property
    def name(self) -> str:
        return f"{self.crate}/{self.stem}"


# ---- reading


def read_edits(path: Path) -> list[Edit]:
    """Returns the edits in a file of edits/."""
    edits, file = [], ""
    for block in path.read_text().rstrip("\n").split("\n\n"):
        name, *lines = block.split("\n")
        signs = "".join(line[:1] for line in lines)
        if re.fullmatch(r"src/[\w/]+\.rt:", block):
            file = name[:-1]
        elif file and re.fullmatch(r"\w+", name) and re.fullmatch(r"(?=.) *-*\+*", signs):
            kept, old, new = (tuple(it[2:] for it in lines if it[0] == sign) for sign in " -+")
            edits.append(Edit(path.stem, name, (Lines(file, kept, old, new),)))
        else:
            raise BadEdits(f"{path}: '{name}' is neither a file nor an edit of one")
    return edits


def read_must_fail(path: Path) -> Edit:
    """Returns the edit in a file of must-fail/, as `rt ci` reads it."""
    file, old, changes = "", "", []
    for line in path.read_text().split("\n"):
        word, _, rest = line.partition(":")
        if word == "file":
            file = rest.strip()
        elif word == "old":
            old = rest.removeprefix(" ")
        elif word == "new":
            changes.append(Text(file, old, rest.removeprefix(" ")))
    return Edit(path.parent.parent.name, path.stem, tuple(changes))


def all_edits() -> dict[str, list[Edit]]:
    """Returns the edits of each crate: those of its must-fail/ and of its file in edits/."""
    edits = [read_must_fail(path) for path in sorted(TOP.glob("crates/*/must-fail/*.edit"))]
    for path in sorted(FOLDER.glob("*.edits")):
        edits += read_edits(path)
    of_crates: dict[str, list[Edit]] = {}
    for edit in edits:
        others = of_crates.setdefault(edit.crate, [])
        if edit.name in (other.name for other in others):
            raise BadEdits(f"{edit.name} is there twice")
        others.append(edit)
    return dict(sorted(of_crates.items()))


# ---- applying


def applied(texts: dict[str, str], edit: Edit) -> Optional[dict[str, str]]:
    """Returns the texts of the crate's files with this edit too, or None where it doesn't apply."""
    texts = dict(texts)
    for change in edit.changes:
        at = TOP / "crates" / edit.crate / change.file
        if change.file not in texts:
            if not at.is_file():
                return None
            texts[change.file] = at.read_text()
        changed = change.apply(texts[change.file])
        if changed is None:
            return None
        texts[change.file] = changed.text
    return texts if edit.changes else None
