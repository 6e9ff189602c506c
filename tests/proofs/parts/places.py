"""The functions that edits change, and edits that can be tried in one check."""
from __future__ import annotations

import re
from collections.abc import Iterator
from dataclasses import dataclass
from pathlib import Path
from typing import NamedTuple

from .crates import TOP
from .edits import Edit, applied

OWNER = re.compile(r"impl(?:<[^>]*>)? (?:([\w:]+)(?:<.*>)? for )?&?(\w+)")
FUNCTION = re.compile(r"\s*(?:pub(?:\([\w ]+\))? )?(?:const )?(?:unsafe )?(?:extern .C. )?fn (\w+)")


@dataclass(frozen=True)
class Place:
    """A function, or a line outside functions, which has no name."""

    module: str
    owner: str  # the type that it belongs to, if any
    name: str

    @property
    def path(self) -> str:
        return "::".join(part for part in (self.module, self.owner, self.name) if part)

    @property
    def is_of_a_constant(self) -> bool:
        """Tells whether it is outside functions and types, so that any function may be refused."""
        return not self.name and not self.owner

    def has(self, function: str) -> bool:
        """Tells whether the check means this place by a path.

        For a line of a type any law of the type may be refused, for a constant any function.
        """
        *rest, name = function.split("::")
        if not self.name:
            return self.owner in (*rest, name, "")
        if name.lstrip("+") != self.name:
            return False
        if self.owner:  # the check names a type's module, which may be another than the file's
            return self.owner in rest
        module = self.module.split("::")[-1]
        return rest[-1:] == [module] if rest else not module


def place_of(file: str, text: str, at: int) -> Place:
    """Returns the function around a place of a file's text."""
    parts = Path(file).relative_to("src").with_suffix("").parts
    module = "::".join(part for part in parts if part not in ("lib", "main", "mod"))
    owner = name = ""
    for line in text[: text.find("\n", at)].split("\n"):
        if line.startswith("}"):
            owner = name = ""
        if head := OWNER.match(line):
            owner, name = head[2] + (head[1].split("::")[-1] if head[1] else ""), ""
        if head := FUNCTION.match(line):
            name = head[1]
    return Place(module, owner, name)


def places(edit: Edit) -> set[Place]:
    """Returns the functions and types that an edit changes, or a constant where it changes none."""
    texts: dict[str, str] = {}
    changed_places = set()
    for change in edit.changes:
        text = texts.get(change.file) or (TOP / "crates" / edit.crate / change.file).read_text()
        changed = change.apply(text)
        assert changed, f"{edit.name} doesn't apply"
        texts[change.file] = changed.text
        changed_places.add(place_of(change.file, changed.text, changed.place))
    return {place for place in changed_places if not place.is_of_a_constant} or changed_places


class Batch(NamedTuple):
    """Edits that are tried in one check, and the texts of the crate's files with them."""

    edits: list[Edit]
    texts: dict[str, str]


def batches(edits: list[Edit]) -> Iterator[Batch]:
    """Yields the edits, which all apply, in as few checks as they need.

    Those of one check change different functions, and an edit of a constant is alone.
    """
    left = list(edits)
    while left:
        batch, used, rest = Batch([], {}), set[Place](), []
        for edit in left:
            texts, changed = applied(batch.texts, edit), places(edit)
            is_alone = any(place.is_of_a_constant for place in changed | used)
            if texts is None or (batch.edits and (is_alone or changed & used)):
                rest.append(edit)
            else:
                batch, used = Batch([*batch.edits, edit], texts), used | changed
        yield batch
        left = rest
