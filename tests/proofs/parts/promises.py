"""The promises of the crates: the contracts of public functions, and what their comments say."""
from __future__ import annotations

import re
from collections.abc import Iterator
from dataclasses import dataclass
from functools import lru_cache
from pathlib import Path

from .crates import TOP, rows_of_crates

FUNCTION = re.compile(r"\s*(pub )?(?:const )?(?:unsafe )?(?:extern .C. )?fn (\w+)")
OWNER = re.compile(r"(?:impl(?:<[^>]*>)? (?:[\w:]+(?:<.*>)? for )?&?|(pub trait ))(\w+)")
# a word that only a source can have, by its form: with `_`, `::` or capitals in it
WORD_OF_SOURCES = re.compile(r"(?=.*(?:_|::))[A-Za-z][\w:]*|[A-Z]+[a-z]+[A-Z]\w*")


@dataclass(frozen=True)
class Function:
    """A public function, or one of a public trait."""

    file: str  # in the crate
    owner: str  # the type or trait that it belongs to, if any
    name: str
    comment: str
    clauses: tuple[str, ...]  # its contract

    @property
    def path(self) -> str:
        return f"{self.owner}::{self.name}" if self.owner else self.name

    @property
    def is_law(self) -> bool:
        return self.file.endswith("/laws.rt")

    @property
    def is_promise(self) -> bool:
        return self.is_law or bool(self.clauses)


def comment_above(lines: list[str], number: int) -> str:
    """Returns the comment above a line, in paragraphs of one line each."""
    comment: list[str] = []
    for line in map(str.strip, reversed(lines[:number])):
        if line.startswith("///"):
            comment.insert(0, line[3:].strip())
        elif not line.startswith(("#[", "//")):
            break
    return re.sub(r"(?<=\S)\n(?=\S)", " ", "\n".join(comment))


def clauses_below(lines: list[str], number: int) -> tuple[str, ...]:
    """Returns the clauses of the function whose head begins at this line."""
    indent = len(lines[number]) - len(lines[number].lstrip())
    clauses: list[str] = []
    for line in lines[number + 1 :]:
        bare = line.strip()
        is_head = bare.startswith((")", "where", "->"))
        if not bare or (len(line) - len(line.lstrip()) <= indent and not is_head):
            break
        if re.match(r"(requires|ensures)\b", bare):
            clauses.append(bare)
        elif clauses and not bare.startswith("//"):
            clauses[-1] += " " + bare
    return tuple(clauses)


def functions_of_file(path: Path, name: str) -> Iterator[Function]:
    """Yields the public functions of a source, which has this name in its crate."""
    lines, owner, is_trait = path.read_text().splitlines(), "", False
    for number, line in enumerate(lines):
        if head := OWNER.match(line):
            owner, is_trait = head[2], bool(head[1])
        elif line.startswith("}"):
            owner, is_trait = "", False
        found = FUNCTION.match(line)
        if found and (found[1] or is_trait):
            comment, clauses = comment_above(lines, number), clauses_below(lines, number)
            yield Function(name, owner, found[2], comment, clauses)


@lru_cache(maxsize=None)
def functions_of(crate: str) -> tuple[Function, ...]:
    """Returns the public functions of a crate, file by file."""
    folder = TOP / "crates" / crate
    return tuple(
        function
        for path in sorted((folder / "src").rglob("*.rt"))
        if "tests" not in path.relative_to(folder).with_suffix("").parts
        for function in functions_of_file(path, str(path.relative_to(folder)))
    )


def promises_of(crate: str) -> list[Function]:
    """Returns what a crate promises: its public functions with a contract, and its laws."""
    return [function for function in functions_of(crate) if function.is_promise]


def promising_crates() -> list[str]:
    """Returns the crates that promise something. Crates of tests promise nothing."""
    return [it for it in rows_of_crates() if not it.startswith("tests_") and promises_of(it)]


@lru_cache(maxsize=None)
def words_of_sources() -> frozenset[str]:
    """Returns all words of the sources without their comments, and the crates' and files' names."""
    words = set(rows_of_crates())
    for pattern in ("src/**/*.rt", "specs/**/*.antt"):
        for path in TOP.glob(f"crates/*/{pattern}"):
            lines = path.read_text().splitlines()
            code = [line for line in lines if not line.lstrip().startswith(("//", "--"))]
            words.update(re.findall(r"\w+", "\n".join(code)), [path.stem])
    return frozenset(words)


def unknown_words(comment: str) -> list[str]:
    """Returns the words in code of a comment that only a source can have, and that none has."""
    words = [word.removesuffix("()") for word in re.findall(r"`([^`]*)`", comment)]
    return [
        word
        for word in words
        if WORD_OF_SOURCES.fullmatch(word) and not words_of_sources().issuperset(word.split("::"))
    ]
