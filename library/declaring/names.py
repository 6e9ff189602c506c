"""Compares the calls with those of the Rust crate and the Python package, and those in comments."""
from __future__ import annotations

import re
from typing import List, Set

from . import exports, python
from .texts import Files

RUST, PACKAGE = "library/rust/src/", "library/python/vintsaky/"
OBJECTS = {
    "game": "Game",
    "engine": "Engine",
    "match": "Match",
    "lines": "CommandLines",
    "replies": "Replies",
}
# what has another name in Rust, and what is elsewhere there: the beginning of its line
NAMES = {
    "place": "new",
    "hash": "board_hash",
    "next": "next_action",
    **{name: f"is_{name}" for name in ("finished", "ended", "in_step", "ok")},
}
ELSEWHERE = {
    "version": "pub fn version(",
    "cause_text": "impl fmt::Display for Refusal ",
    "point": "    pub fn new(column: u32, row: u32)",
    "write_command": "    pub fn line(",
    "write_reply": "pub fn reply(",
    "game_copy": "impl Clone for Game ",
    "game_board_text": "impl fmt::Display for Game ",
}
for _name in ("colour", "vertex", "komi"):
    ELSEWHERE[f"read_{_name}"] = f"impl FromStr for {_name.title()} "
    ELSEWHERE[f"{_name}_text"] = f"impl fmt::Display for {_name.title()} "
NOT_IN_RUST = r"interface_\d+|[a-z]+_(?:bytes|align)|games_\w+"  # on linking, memory and many games


def is_in_rust(name: str, text: str) -> bool:
    """Returns whether the Rust crate has this call. A method is in the type of its object."""
    if name in ELSEWHERE:
        return f"\n{ELSEWHERE[name]}" in text
    kind, _, verb = name.partition("_")
    blocks = re.findall(
        rf"^impl {OBJECTS.get(kind, 'None')} \{{\n(.*?)^\}}", text, re.MULTILINE | re.DOTALL
    )
    return any(
        re.search(rf"^    pub fn {NAMES.get(verb, verb)}(?:<\w+>)?\(", block, re.MULTILINE)
        for block in blocks
    )


def used_in_python(files: Files) -> Set[str]:
    """Returns the calls of the Python package, as patterns: a part of a name may be filled in."""
    own = (python.DECLARED, python.NUMBERS)
    text = "\n".join(
        text for path, text in files.items() if path.startswith(PACKAGE) and path not in own
    )
    filled = re.findall(r'f"(vintsaky_[\w{}.]*)"', text)
    return {
        *re.findall(r"\b(?:library|unlocked)\.(vintsaky_\w+)", text),
        *(re.sub(r"\{[\w.]*\}", "[a-z0-9]+", it) for it in filled),
    }


def differing(files: Files) -> List[str]:
    """Returns a line for each call that Rust or Python lacks, and for each that isn't there."""
    calls, used = exports.all_calls(files), used_in_python(files)
    rust = "\n".join(text for path, text in files.items() if path.startswith(RUST))
    lines = []
    for name, call in calls.items():
        short = name[len("vintsaky_") :]
        if not re.fullmatch(NOT_IN_RUST, short) and not is_in_rust(short, rust):
            lines.append(f"{name} is in the exports, and not in {RUST}")
        if not any(re.fullmatch(it, name) for it in used):
            lines.append(f"{name} is in the exports, and {PACKAGE} makes it nowhere")
        for other in re.findall(r"\[`(vintsaky_\w+)`\]", call.comment.text + call.comment.errors):
            if other not in calls:
                lines.append(f"the comment of {name} names {other}, which is not in the exports")
    for pattern in used:
        if not any(re.fullmatch(pattern, name) for name in calls):
            lines.append(f"{PACKAGE} makes {pattern}, which is not in the exports")
    return lines
