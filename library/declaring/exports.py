"""The calls of the library, as the exports in crates/vintsaky/src declare them.

An argument of an export becomes one or two of C: a slice is a pointer with its length, or with the
size of the buffer.
"""
from __future__ import annotations

import re
from dataclasses import dataclass
from functools import lru_cache
from typing import Dict, List, Match, Optional

from .texts import Files, Mistake

FOLDER = "crates/vintsaky/src/"
ATTRIBUTE = "#[unsafe(no_mangle)]\n"
EXPORT = re.compile(
    r"((?:^///[^\n]*\n)*)^#\[unsafe\(no_mangle\)\]\n"
    r'pub (?:unsafe )?extern "C" fn (vintsaky_\w+)\(([^()]*)\)(?:\s*-> (\w+))?'
    r"(?:\n(?:    [^\n]*\n)*\{\n(.*?)^\}| \{\})$",
    re.MULTILINE | re.DOTALL,
)
# what a number is called in C, and in ctypes
NUMBERS = {
    "u32": ("uint32_t", "c_uint32"),
    "i32": ("int32_t", "c_int32"),
    "u64": ("uint64_t", "c_uint64"),
    "usize": ("size_t", "c_size_t"),
    "bool": ("bool", "c_bool"),
    "f32": ("float", "c_float"),
}
BYTES = "bytes"  # an argument of this name has bytes that aren't text
OF_BYTES = (BYTES, "causes", "over")  # and so do these


@dataclass(frozen=True)
class Argument:
    """An argument of C: its name, and its type in C and in ctypes."""

    name: str
    c: str
    python: str


@dataclass(frozen=True)
class Comment:
    """A comment: what it says of a call, and of its errors."""

    text: str
    errors: str


@dataclass(frozen=True)
class Call:
    """A call: its comment, and its result and arguments in C and in ctypes."""

    name: str
    comment: Comment
    c: str
    python: str
    arguments: List[Argument]


# ---- types


def handle_of(kind: str) -> Optional[str]:
    """Returns the object of a handle's type, if it is one: `game` of GameHandle."""
    found = re.fullmatch(r"(\w+)Handle", kind)
    return found[1].lower() if found else None


def slice_of(name: str, kind: str, is_written: bool) -> List[Argument]:
    """Returns the two arguments of a slice."""
    length = Argument(f"{name}_length", *NUMBERS["usize"])
    if handle_of(kind) and is_written:  # each handle is borrowed, so it may change
        return [Argument(name, f"vintsaky_{handle_of(kind)} *", f"POINTER({kind})"), length]
    if is_written:
        byte = ("uint8_t", "c_uint8") if name in OF_BYTES else ("char", "c_char")
        c, python = {"u8": byte, **NUMBERS}[kind]
        size = Argument(f"{name}_room", *NUMBERS["usize"])
        return [Argument(name, f"{c} *", f"POINTER({python})"), size]
    if kind != "u8":
        c, python = NUMBERS[kind]
        return [Argument(name, f"const {c} *", f"POINTER({python})"), length]
    pointer = ("const void *", "c_void_p") if name == BYTES else ("const char *", "c_char_p")
    return [Argument(name, *pointer), length]


def in_c(name: str, kind: str) -> List[Argument]:
    """Returns the arguments of C that an argument of an export becomes.

    KeyError if C has no such type.
    """
    is_slice = re.fullmatch(r"&(mut )?\[(\w+)\]", kind)
    if is_slice:
        return slice_of(name, is_slice[2], bool(is_slice[1]))
    pointer = re.fullmatch(r"(?:&mut|\*mut) (\w+)", kind)
    if not pointer:
        return [Argument(name, *NUMBERS[kind])]
    if kind == "*mut u8":
        return [Argument(name, "void *", "c_void_p")]
    if handle_of(pointer[1]):
        return [Argument(name, f"vintsaky_{handle_of(pointer[1])} *", f"POINTER({pointer[1]})")]
    c, python = NUMBERS[pointer[1]]
    return [Argument(name, f"{c} *", f"POINTER({python})")]


def arguments_of(text: str, where: str) -> List[Argument]:
    """Returns the arguments of C that those of an export become."""
    arguments: List[Argument] = []
    for name, kind in (" ".join(it.split()).split(": ", 1) for it in text.split(",") if it.strip()):
        try:
            arguments += in_c(name, kind)
        except KeyError:
            problem = f"the argument {name} is of a type that C can't have: {kind}"
            raise Mistake(f"{where}: {problem}") from None
    return arguments


# ---- comments


def paragraphs(text: str) -> str:
    """Returns the text of the lines of a comment, its paragraphs one after the other."""
    return " ".join(" ".join(line[3:].strip() for line in text.splitlines()).split())


def comment_of(comment: str, where: str) -> Comment:
    """Returns the parts of a comment. What it says of safety is at the head of the header."""
    parts = re.split(r"^/// # (\w+)\n", comment, flags=re.MULTILINE)
    sections = dict(zip(parts[1::2], parts[2::2]))
    if not parts[0].strip() or set(sections) - {"Errors", "Safety"}:
        wanted = "what it does, and then, if it can be rejected, '# Errors'"
        raise Mistake(f"{where}: its comment has to say {wanted}")
    return Comment(paragraphs(parts[0]), paragraphs(sections.get("Errors", "")))


def call_of(found: Match[str], path: str) -> Call:
    """Returns the call of an export."""
    text, name, arguments, result, body = found.groups()
    where = f"{path}: {name}"
    comment = comment_of(text, where)
    if ("code_of(" in (body or "")) != bool(comment.errors):
        wanted = "list the errors, and must not be there if it is never rejected"
        raise Mistake(f"{where}: '# Errors' has to {wanted}")
    if result and result not in NUMBERS:
        raise Mistake(f"{where}: it returns what C can't: {result}")
    c, python = NUMBERS[result] if result else ("void", "None")
    return Call(name, comment, c, python, arguments_of(arguments, where))


@lru_cache(maxsize=64)
def calls_in(path: str, text: str) -> List[Call]:
    """Returns the calls of a file of exports, in their order there."""
    calls = [call_of(it, path) for it in EXPORT.finditer(text)]
    if len(calls) != text.count(ATTRIBUTE) or text.count(ATTRIBUTE) != text.count("no_mangle"):
        begun = text.count("no_mangle")
        raise Mistake(f"{path}: {begun} exports are begun, and {len(calls)} can be read")
    return calls


def files_of(section: str, files: Files) -> List[str]:
    """Returns the files of a section of the header: a module, or a module's folder."""
    names = [
        f"{FOLDER}{section}.rt",
        *(f"{FOLDER}{section}/{it}.rt" for it in ("exports", "searching")),
    ]
    return [it for it in names if it in files and "no_mangle" in files[it]]


def calls_of(section: str, files: Files) -> List[Call]:
    """Returns the calls of a section of the header."""
    calls = [call for path in files_of(section, files) for call in calls_in(path, files[path])]
    if not calls:
        raise Mistake(f"there are no exports in {FOLDER}{section}.rt and {section}/")
    return calls


def all_calls(files: Files) -> Dict[str, Call]:
    """Returns all calls, by their names."""
    calls = {}
    for path in [it for it in files if it.startswith(FOLDER)]:
        for call in calls_in(path, files[path]):
            if call.name in calls:
                raise Mistake(f"{path}: {call.name} is exported twice")
            calls[call.name] = call
    return calls
