"""The file of a plan: how it is written.

A plan that says the same as before stays as it is, also one of earlier scripts. All comments stay
where a plan is changed.
"""
from __future__ import annotations

import os

from ..model import Plan
from ..output import Mistake
from .plan_file import (
    ELSEWHERE,
    ENGINES,
    FIELDS,
    THIS_VERSION,
    VERSION,
    Field,
    decoded,
    is_toml,
    parse,
)
from .simple_toml import Document, Number, Path, Value, read
from .simple_toml_writing import as_comment, changed, new_entry, value_of


def value_in(field: Field, plan: Plan) -> Value:
    """Returns a plan's value of a field."""
    found = getattr(plan, field.attribute)
    if isinstance(found, bool):
        return found
    if isinstance(found, list):
        return [value_of(each) for each in found]
    return Number(found) if field.is_number or isinstance(found, int) else value_of(found or "")


def values_of(plan: Plan) -> dict[Path, Value]:
    """Returns the values that the file of a plan has."""
    keys = {
        key: value_in(field, plan)
        for key, field in FIELDS.items()
        if getattr(plan, field.attribute) or key == "folder"
    }
    engines = {engine.name: value_of(engine.command) for engine in plan.engines.values()}
    return {
        VERSION: THIS_VERSION,
        **{("", key): value for key, value in keys.items()},
        ENGINES: "",
        **{("engines", name): value for name, value in engines.items()},
    }


def document_of(data: bytes | None, plan: Plan, place: str) -> Document:
    """Returns the document of a plan that has this file, as that would be written now."""
    if data is None:
        return Document([], [])
    if is_toml(decoded(data)):
        return read(decoded(data), place)
    from . import earlier_plan  # which new plans don't need

    above: dict[Path | None, list[str]] = {}
    for path, comments in earlier_plan.comments_of(decoded(data)):
        above.setdefault(path, []).extend(map(as_comment, comments))
    values = values_of(plan).items()
    return Document(
        [new_entry(path, value, above.get(path)) for path, value in values], above[None]
    )


def text_with(plan: Plan, before: bytes | None, place: str) -> bytes:
    """Returns the file of a plan that had this one before: the same where it says the same."""
    wanted = values_of(plan)
    old = plan if before is None else parse(before, place)
    if before is not None and values_of(old) == wanted:
        return before
    document, lines = document_of(before, old, place), []
    for table in ("", "engines"):
        entries = {entry.path: entry for entry in document.entries if entry.table == table}
        for path, value in wanted.items():
            if path[0] == table and path not in entries:
                entries[path] = new_entry(path, value)
            elif path[0] == table and entries[path].value != value:
                entries[path] = changed(entries[path], value)
        lines += [line for entry in entries.values() for line in (*entry.above, entry.text)]
    return "".join(f"{line}\n" for line in [*lines, *document.below]).encode()


def write_plan(plan: Plan, folder: str, before: bytes | None) -> None:
    """Writes the plan of a folder, which had this file of a plan before, if it had one. The plan is
    written under another name, and moved."""
    place = f"{folder}/plan"
    new_place = f"{place}.new.{os.getpid()}"
    data = text_with(plan, before, place)
    if os.path.exists(place):
        with open(place, "rb") as file:
            found = file.read()
        if found == data:
            return
        if before not in (None, found):  # the trial of an engine takes its time
            raise Mistake(
                f"{place} was changed by another run at the same time: give the command again"
            )
    try:
        with open(new_place, "wb") as file:
            file.write(data)
            file.flush()
            os.fsync(file.fileno())
        if before is None:
            put_new(new_place, place)
        else:
            os.replace(new_place, place)
    except OSError as error:
        if os.path.exists(new_place):
            os.unlink(new_place)
        raise OSError(error.errno, f"it can't be written: {error.strerror}", place) from None


def put_new(new_place: str, place: str) -> None:
    """Moves a new plan to its place. Of two runs that begin a folder at once, one makes it."""
    try:
        os.link(new_place, place)
    except FileExistsError:
        with open(new_place, "rb") as mine, open(place, "rb") as other:
            is_same = mine.read() == other.read()
        os.unlink(new_place)
        if not is_same:
            raise Mistake(
                f"{place} was made by another run at the same time: {ELSEWHERE}"
            ) from None
    except OSError:  # a file system without links
        os.replace(new_place, place)
    else:
        os.unlink(new_place)
