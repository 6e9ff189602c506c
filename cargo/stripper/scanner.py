"""Splits a Rattle source into what Rust reads too and the clauses of contracts, without ghosts."""
from __future__ import annotations

import re
from typing import List, NamedTuple, Optional, Sequence

from .refused import Refused

QUOTED = re.compile(r'(?:b|c)?"(?:[^"\\]|\\.)*"', re.S)
RAW = re.compile(r'(?:b|c)?r(#*)"')
# The parts of Rust, by kind, the first that is found. A raw text ends where its own quote does, and
# a block comment may have others in it.
RUST = re.compile(
    r"""(?P<space>\s+)
    | (?P<doc>//[/!](?!/)[^\n]*)
    | (?P<note>//[^\n]*)
    | (?P<block>/\*)
    | (?P<raw>(?:b|c)?r\#*")
    | (?P<text>(?:b|c)?"(?:[^"\\]|\\.)*"
        |b?'(?:[^'\\\n]|\\(?:x[0-9a-fA-F]{2}|u\{[0-9a-fA-F_]+\}|.))')
    | (?P<lifetime>'[A-Za-z_]\w*)
    | (?P<word>[A-Za-z_][A-Za-z0-9_]*)
    | (?P<number>[0-9][A-Za-z0-9_]*(?:\.[0-9][A-Za-z0-9_]*)?)
    | (?P<mark>.)""",
    re.S | re.X,
)
GHOSTS_BEGIN = re.compile(r"(?:pub|ghost|impl|requires|ensures)\b")
CLAUSE = re.compile(r"(?:requires|ensures)\*?\s*(?:[\w«»]+\s*)?(?=\{)")
MODEL = re.compile(r"impl\b\s*(?:<[^{};/]*>)?\s*(?:\w+::)*Model\s+for\b[^{};/]*(?=\{)")
GHOST = re.compile(r"(?:pub(?:\([^)]*\))?\s+)?ghost\b")
GHOST_USE = re.compile(r"\s+use\b")
BY = re.compile(r"\s*by\s*(?=\{)")
# The attributes that are removed with a ghost.
OF_THE_CHECK = re.compile(r"\[(?:(?:tactic|cycle)\b|derive\(Drop\)\])")
COMMENT_EDGE = re.compile(r"/\*|\*/")
HIDDEN = ("doc", "note", "text")  # the kinds of parts that have no code


class Part(NamedTuple):
    """A part of a source."""

    kind: str  # space, doc, note, text, lifetime, word, number, mark, or clause
    text: str
    line: int


def found_or_refused(at: int, name: str, why: str) -> int:
    """Returns a place, or refuses the source where nothing was found."""
    if at < 0:
        raise Refused(name, why)
    return at


def end_of_text(text: str, at: int) -> int:
    """Returns where the text in quotes ends that begins here."""
    quoted = QUOTED.match(text, at)
    return found_or_refused(quoted.end() if quoted else -1, "open text", "a text is not closed")


def end_of_block_comment(text: str, at: int) -> int:
    """Returns where the block comment ends that begins here, with those that are in it."""
    depth = 0
    for edge in COMMENT_EDGE.finditer(text, at):
        depth += 1 if edge.group() == "/*" else -1
        if depth == 0:
            return edge.end()
    raise Refused("open comment", "a comment is not closed")


def end_of_braces(text: str, at: int) -> int:
    """Returns where the braced term ends that begins here.

    A term has primes, and no character literals.
    """
    depth = 0
    while at < len(text):
        char = text[at]
        if char == '"':
            at = end_of_text(text, at)
            continue
        if text.startswith("/-", at) or (text.startswith("--", at) and text[at - 1] not in " \n"):
            raise Refused("comment of a term", "it isn't known where it ends")
        if text.startswith("--", at):
            at = found_or_refused(text.find("\n", at), "open brace", "a brace is not closed")
        if char in "{}":
            depth += 1 if char == "{" else -1
            if depth == 0:
                return at + 1
        at += 1
    raise Refused("open brace", "a brace is not closed")


def end_of_member(text: str, at: int) -> int:
    """Returns where a ghost member or field ends.

    That is after its `;` or `,`, or at the brace that closes the struct.
    """
    while at < len(text):
        char = text[at]
        if char == "{":
            at = end_of_braces(text, at)
        elif char == '"':
            at = end_of_text(text, at)
        elif char in ";,":
            return at + 1
        elif char == "}":
            return at
        else:
            at += 1
    raise Refused("open ghost", "a ghost member has no end")


def end_of_ghost(text: str, at: int) -> Optional[int]:
    """Returns where the ghost ends that is here, or None where there is none.

    A ghost is an import, a member, a clause or a model.
    """
    if ghost := GHOST.match(text, at):
        if not GHOST_USE.match(text, ghost.end()):
            return end_of_member(text, ghost.end())
        end = text.find(";", ghost.end())
        return found_or_refused(end, "open ghost", "an import of a ghost has no end") + 1
    if model := MODEL.match(text, at):
        return end_of_braces(text, model.end())
    if clause := CLAUSE.match(text, at):
        end = end_of_braces(text, clause.end())
        while by := BY.match(text, end):
            end = end_of_braces(text, by.end())
        return end
    return None


def part_of_rust(text: str, at: int, line: int) -> Part:
    """Returns the part of Rust that begins here."""
    found = RUST.match(text, at)
    assert found and found.lastgroup  # each character is a part, at least as a mark
    kind, end = found.lastgroup, found.end()
    if raw := RAW.match(text, at) if kind == "raw" else None:
        close = f'"{raw[1]}'
        end = found_or_refused(text.find(close, end), "open text", "a text is not closed")
        return Part("text", text[at : end + len(close)], line)
    if kind == "block":
        return Part("note", text[at : end_of_block_comment(text, at)], line)
    if found.group() == '"':
        raise Refused("open text", "a text is not closed")
    return Part(kind, text[at:end], line)


class Attribute(NamedTuple):
    """An attribute: the index of its first part, and its text."""

    start: int
    text: str


def attribute_above(parts: Sequence[Part], at: int) -> Optional[Attribute]:
    """Returns the attribute whose `]` is the part before this, or None where there is none."""
    begin, depth = at, 0
    while begin > 0:
        begin -= 1
        depth += {"]": 1, "[": -1}.get(parts[begin].text, 0) if parts[begin].kind == "mark" else 0
        if depth == 0:
            break
    if begin == 0 or parts[begin].text != "[" or parts[begin - 1].text != "#":
        return None
    return Attribute(begin - 1, "".join(part.text for part in parts[begin:at]))


def refuse_what_is_above(parts: Sequence[Part], line: int) -> None:
    """Refuses a ghost under an attribute or documentation, which would be of the next item."""
    at = len(parts)
    while at and parts[at - 1].kind in ("space", "doc", "note"):
        at -= 1
        if parts[at].text.startswith(("///", "/**")) and not parts[at].text.startswith(
            ("////", "/***", "/**/")
        ):
            raise Refused("comment of a ghost", "it would be the comment of the next item", line)
    if at and parts[at - 1].text == "]":
        attribute = attribute_above(parts, at)
        if attribute and not OF_THE_CHECK.match(attribute.text):
            raise Refused("attribute of a ghost", "it would be an attribute of the next item", line)
        if attribute:
            refuse_what_is_above(parts[: attribute.start], line)


def pop_notes(parts: List[Part]) -> List[str]:
    """Removes the plain comments at the end of the parts, which are on what follows.

    Returns the comments.
    """
    notes: List[str] = []
    while parts and parts[-1].kind in ("space", "note"):
        if parts[-1].kind == "space" and parts[-1].text.count("\n") > 1:
            break
        part = parts.pop()
        if part.kind == "note":
            notes.insert(0, part.text)
    return notes


def parts_of(text: str) -> List[Part]:
    """Returns the parts of a source.

    Of the ghosts only the clauses are among them, with the comments above them.
    """
    parts: List[Part] = []
    at, line = 0, 1
    while at < len(text):
        end = end_of_ghost(text, at) if GHOSTS_BEGIN.match(text, at) else None
        if end is not None:
            if not CLAUSE.match(text, at):
                refuse_what_is_above(parts, line)
            notes = pop_notes(parts)
            if CLAUSE.match(text, at):
                parts.append(Part("clause", "\n".join([*notes, text[at:end]]), line))
        else:
            parts.append(part_of_rust(text, at, line))
            end = at + len(parts[-1].text)
        line += text.count("\n", at, end)
        at = end
    return parts
