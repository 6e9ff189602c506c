"""Rewrites what Rust and its library have in other forms, in code without ghosts."""
from __future__ import annotations

import re
from typing import List, NamedTuple, Sequence

from .places import CLOSE, OPEN, end_of_group, until
from .refused import Refused
from .scanner import HIDDEN, Part

RUNTIME = r"\(\s*_?rt: HostRuntime,?\s*\)"  # the parameters of a function that gets the runtime
SAFETY = """\
///
/// # Safety
///
/// Each pointer is that of as many items as the length behind it says, or the length is 0.
"""
EXPORT = re.compile(r"[^\n]*?\bextern\s+(?:\0\d+\0\s+)?fn\s+(?P<name>\w+)\s*")
SLICE = re.compile(r"\s*(\w+):\s*&(mut )?\[(\w+)\]\s*")
# A slice, a text, a lifetime or a trait object: C has another form of each, or none.
NOT_IN_C = re.compile(r"\[|\bstr\b|\bdyn\b|'|\0")


class Code:
    """Code in which comments and literals are \\0N\\0, so that no change affects them."""

    def __init__(self, parts: Sequence[Part]) -> None:
        self.hidden = [part.text for part in parts if part.kind in HIDDEN]
        numbers = iter(range(len(self.hidden)))
        self.text = "".join(
            f"\0{next(numbers)}\0" if part.kind in HIDDEN else part.text for part in parts
        )

    def whole(self) -> str:
        """Returns the code with its comments and literals."""
        return re.sub("\0(\\d+)\0", lambda number: self.hidden[int(number[1])], self.text)


def quoted(code: str) -> str:
    """Returns a piece of code for a refusal, in a line and with dots for comments and literals."""
    return " ".join(re.sub("\0\\d+\0", "..", code).split())


def without_attributes(code: str) -> str:
    """Returns the code without the attributes and derives that Rust doesn't know."""
    code = re.sub(r"[ \t]*#!?\[(?:tactic|cycle)\((?:[^()]|\([^()]*\))*\)\]\n?", "", code)

    def derive(found: re.Match[str]) -> str:
        named = [name.strip() for name in found[2].split(",") if name.strip()]
        if unknown := [name for name in named if not re.fullmatch(r"\w+", name)]:
            raise Refused("derive", f"a derive has what is no name alone: {quoted(unknown[0])}")
        names = [name for name in named if name != "Drop"]
        return f"{found[1]}#[derive({', '.join(names)})]{found[3]}" if names else ""

    return re.sub(r"([ \t]*)#\[derive\(([^)]*)\)\](\n?)", derive, code)


def without_drop(code: str) -> str:
    """Returns the code without the bound `Drop`, since every value of Rust may be dropped."""
    code = re.sub(r"\s*\+\s*Drop\b(?!::)", "", code)
    code = re.sub(r":\s*Drop\s*\+\s*", ": ", code)
    return re.sub(r"(\w|\))\s*:\s*Drop\b(?=\s*[,>{;\n])", r"\1", code)


def without_models(code: str) -> str:
    """Returns the code without the imports of what only the kit has."""
    code = re.sub(r"\buse std::marker::Model;\n?", "", code)
    code = re.sub(r"\buse std::marker::\{Model, (\w+)\};", r"use std::marker::\1;", code)
    return code.replace("use std::simd::prelude::*;", "use kit_simd::*;")


def with_runtime(code: str) -> str:
    """Returns the code, in which `main` and tests get the runtime that Rust doesn't give them."""
    code = re.sub(
        rf"#\[test\]\s*fn (\w+)({RUNTIME})",
        r"#[test]\nfn \1() {\n    kit_std::test::passes(given_\1);\n}\n\nfn given_\1\2",
        code,
    )
    code, has_main = re.subn(rf"\bfn main(?={RUNTIME})", "fn given_main", code)
    return code.rstrip() + "\n\nkit_std::main!(given_main);\n" if has_main else code


def with_calls_of_rust(code: str) -> str:
    """Returns the code with Rust's calls where the kit's also take the runtime or the allocator."""
    code = re.sub(r"(?<!\w)(assert|assert_eq|assert_ne|panic)!\(\s*&?rt;\s*", r"\1!(", code)
    code = re.sub(
        r"(?<![:\w])(println|format)!(?=\(\s*(?:&?rt|in [\w.()]+);)", r"kit_std::\1!", code
    )
    code = re.sub(r"\.expect\(&?rt,\s*", ".expect(", code)
    code = re.sub(r"\.(collect|to_string)\((?=\s*[^\s)])", r".\1_in(", code)
    code = re.sub(
        r"\bErrorKind::Uncategorized =>", "kind if kit_std::io::is_uncategorized(kind) =>", code
    )
    return code.replace("ErrorKind::Uncategorized", "kit_std::io::uncategorized()")


class Parameter(NamedTuple):
    """A parameter of a C function, and the line that makes a slice of it, if it is one."""

    text: str
    slice_line: str = ""


def parameter(text: str, function: str) -> Parameter:
    """Returns a parameter of a C function, in which a slice is a pointer and a length."""
    found = SLICE.fullmatch(text)
    if not found and NOT_IN_C.search(text):
        reason = f"it isn't known what C hands {function} as `{quoted(text)}`"
        raise Refused("slice of C", reason)
    if not found:
        return Parameter(text)
    name, is_mutable, item = found.groups()
    call = "slice_mut" if is_mutable else "slice"
    pointer = "*mut" if is_mutable else "*const"
    return Parameter(
        f" {name}: {pointer} {item}, {name}_len: usize",
        f"\n    let {name} = unsafe {{ kit_ffi::{call}({name}, {name}_len) }};",
    )


def split_at_commas(group: str) -> List[str]:
    """Returns the pieces between the commas of a group."""
    pieces: List[str] = []
    depth = begin = 0
    for at, character in enumerate(group):
        if character == "," and depth == 0:
            pieces.append(group[begin:at])
            begin = at + 1
        depth += (character in OPEN) - (character in CLOSE)
    return [*pieces, group[begin:]]


def with_pointers(code: str) -> str:
    """Returns the code, in which slices of C functions are a pointer and a length.

    The kit passes them in just that way.
    """
    if len(re.findall(r"\bextern\b", code)) != len(EXPORT.findall(code)):
        raise Refused("slice of C", "an `extern` isn't that of a function with a name")
    made, done = "", 0
    for found in EXPORT.finditer(code):
        head, name = found.group(), found["name"]
        if not code.startswith("(", found.end()):
            raise Refused("slice of C", f"{name} has parameters of types or lifetimes")
        end = end_of_group(code, found.end())
        if code[end - 1] != ")":
            raise Refused("open brace", "a parenthesis is not closed")
        pieces = split_at_commas(code[found.end() + 1 : end - 1])
        parts = [parameter(piece, name) for piece in pieces]
        body = until(code, end, "{;")
        result = code[end:body]
        if NOT_IN_C.search(result):
            reason = f"it isn't known what {name} hands C: `{quoted(result)}`"
            raise Refused("slice of C", reason)
        slices = "".join(part.slice_line for part in parts)
        if slices and not code.startswith("{", body):
            raise Refused("slice of C", f"{name} has no body")
        if slices:
            if not re.search(r"\bunsafe\s+extern\b", head):
                head = head.replace("extern", "unsafe extern", 1)
            inner = ",".join(part.text for part in parts)
            made += code[done : found.start()] + f"{head}({inner}){result}{{{slices}"
            done = body + 1
    return made + code[done:]


def laid_out(code: str, hidden: Sequence[str]) -> str:
    """Returns the code with the layout that it has where a ghost is gone.

    No brace gets into a comment that ends with its line.
    """

    def brace(found: re.Match[str]) -> str:
        is_comment = hidden[int(found["number"])].startswith("//")
        return found.group() if is_comment else f"{found['last']} {{\n"

    code = re.sub(r"(?P<last>\0(?P<number>\d+)\0)\s*\n\s*\{\n", brace, code)
    code = re.sub(r"(?<!\0)(?<!\s)\s*\n\s*\{\n", " {\n", code)
    code = re.sub(r"(?<=[{])\n\s*\n", "\n", code)
    code = re.sub(r"[ \t]+\n", "\n", code)
    return re.sub(r"\n{3,}", "\n\n", code).lstrip("\n")


STEPS = [
    without_attributes,
    without_drop,
    without_models,
    with_runtime,
    with_calls_of_rust,
    with_pointers,
]


def rewrite(code: Code, needs_kit: bool) -> None:
    """Makes the code Rust. What needs the kit's std takes the shim in place of std."""
    text = code.text
    for step in STEPS:
        text = step(text)
    if needs_kit:
        text = re.sub(r"(?<![:\w])std::", "kit_std::", text)
    code.text = laid_out(text, code.hidden)


def add_safety(code: Code) -> None:
    """Adds the section of documentation that clippy wants above an unsafe function."""
    head = r"(#\[unsafe\(no_mangle\)\]\npub unsafe extern)"
    code.text = re.sub(head, lambda found: SAFETY + found[1], code.text)
