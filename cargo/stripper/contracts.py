"""Writes contracts as text into the documentation of what Rust builds."""
from __future__ import annotations

from typing import Dict, List, Optional, Sequence

from .refused import Refused
from .scanner import Part

HEADING = "# Contract"


def item_start(parts: Sequence[Part], at: int) -> int:
    """Returns the index of the first part of the item whose `fn` is here.

    That is its first attribute, or its `pub`, below its comment.
    """
    depth = 0
    while at > 0:
        part = parts[at - 1]
        if part.kind in ("doc", "note", "clause"):
            break
        if part.kind == "mark":
            depth += {"]": 1, "[": -1}.get(part.text, 0)
            if depth == 0 and part.text in "{};,":
                break
        at -= 1
    while parts[at].kind == "space":
        at += 1
    return at


def clause_lines(clauses: Sequence[str], indent: str) -> List[str]:
    """Returns the lines of documentation that show the clauses."""
    lines = []
    for clause in clauses:
        rows = clause.split("\n")
        margins = [len(row) - len(row.lstrip()) for row in rows[1:] if row.strip()]
        cut = max(0, min(margins, default=0) - 4)
        lines += [rows[0].strip(), *(row[cut:].rstrip() for row in rows[1:])]
    return [f"{indent}/// {line}".rstrip() for line in ["```text", *lines, "```"]]


def is_before_a_name(parts: Sequence[Part], at: int) -> bool:
    """Tells whether a name comes next after this part. None does after the `fn` of a type."""
    following = (part.kind for part in parts[at + 1 :] if part.kind not in ("space", "note", "doc"))
    return next(following, None) == "word"


def clauses_by_item(parts: Sequence[Part]) -> Dict[int, List[str]]:
    """Returns the clauses of each function, by the index at which its item starts."""
    clauses_of: Dict[int, List[str]] = {}
    function: Optional[int] = None
    depth = 0
    for at, part in enumerate(parts):
        if part.kind == "word" and part.text == "fn" and is_before_a_name(parts, at):
            function, depth = at, 0
        elif part.kind == "mark":
            depth += {"(": 1, "[": 1, ")": -1, "]": -1}.get(part.text, 0)
            if part.text in "{}" or (part.text == ";" and depth <= 0):
                function = None
        elif part.kind == "clause":
            if function is None or depth != 0:
                raise Refused(
                    "clause of a closure",
                    "it would be shown as one of the function around it",
                    part.line,
                )
            clauses_of.setdefault(item_start(parts, function), []).append(part.text)
    return clauses_of


def documented(parts: Sequence[Part]) -> List[Part]:
    """Returns the parts, in which clauses are text below the comment of their function."""
    clauses_of = clauses_by_item(parts)
    made: List[Part] = []
    for at, part in enumerate(parts):
        if at in clauses_of:
            before = parts[at - 1].text if at and parts[at - 1].kind == "space" else ""
            indent = before[before.rfind("\n") + 1 :]
            has_comment = at > 1 and parts[at - 2].kind == "doc"
            lines = ([f"{indent}///"] if has_comment else []) + [
                f"{indent}/// {HEADING}",
                f"{indent}///",
            ]
            lines += clause_lines(clauses_of[at], indent)
            made.append(Part("doc", "\n".join(lines).lstrip() + "\n" + indent, part.line))
        if part.kind != "clause":
            made.append(part)
    return made
