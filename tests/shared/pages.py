"""Reads the pages of the repository, in Markdown: their code, links and headings."""
from __future__ import annotations

import os
import re
from functools import lru_cache
from pathlib import Path

from .processes import TOP

# directories of what checks and builds leave
LEFT_OUT = {
    ".git",
    ".hypothesis",
    ".mypy_cache",
    ".pytest_cache",
    "__pycache__",
    "bin",
    "dist",
    "out",
    "target",
    "workspace",
}

BLOCK = re.compile(r"^```(\w*)\n(.*?)^```$", re.MULTILINE | re.DOTALL)
SPAN = re.compile(r"(`+)(?!`)(.+?)(?<!`)\1(?!`)")
TARGET = re.compile(r"(?<=\]\()([^()\s]+)(?=\))")
COMMENT = re.compile(r"<!--.*?-->", re.DOTALL)


@lru_cache(maxsize=None)
def files() -> tuple[str, ...]:
    """Returns the paths of the repository's files, from its top."""
    paths = []
    for folder, inner, names in os.walk(TOP):
        inner[:] = [name for name in inner if name not in LEFT_OUT]
        paths += [str((Path(folder) / name).relative_to(TOP)) for name in names]
    return tuple(sorted(paths))


@lru_cache(maxsize=None)
def page_paths() -> tuple[str, ...]:
    """Returns the paths of the pages."""
    return tuple(path for path in files() if path.endswith(".md"))


def blocks_of(text: str) -> list[str]:
    """Returns the blocks of code between lines of ```."""
    return [block for _, block in BLOCK.findall(text)]


def blocks_in(text: str, language: str) -> list[str]:
    """Returns the blocks in a language, as the line before a block names it; "" is none."""
    return [block for of, block in BLOCK.findall(text) if of == language]


# the pages on the library, in the docs/ of the repository or of a release
OF_LIBRARY = ("library.md", "search.md", "learning.md", "server.md")


def library_blocks(folder: Path, language: str) -> list[str]:
    """Returns the blocks in a language of the pages on the library that are in a folder."""
    texts = [(folder / page).read_text() for page in OF_LIBRARY]
    return [block for text in texts for block in blocks_in(text, language)]


def blank(found: re.Match[str]) -> str:
    """Returns spaces in place of what was found. Lines stay, so that places keep their numbers."""
    return re.sub(r"[^\n]", " ", found[0])


def without_blocks(text: str) -> str:
    """Returns the text with spaces in place of its blocks of code."""
    return BLOCK.sub(blank, text)


def without_code(text: str) -> str:
    """Returns the text with spaces in place of all code."""
    return SPAN.sub(blank, without_blocks(text))


def spans_of(text: str) -> list[str]:
    """Returns the code in the lines of a page, without backquotes."""
    return [found[2] for found in SPAN.finditer(without_blocks(text))]


def line_of(text: str, place: int) -> int:
    """Returns the number of the line in which this place of a text is."""
    return text.count("\n", 0, place) + 1


def anchors_of(text: str) -> set[str]:
    """Returns the anchors of a page, as GitHub makes them of its headings.

    They are in small letters, without punctuation, with hyphens in place of spaces. The second
    heading of the same text has `-1` after it, the third `-2`.
    """
    counts: dict[str, int] = {}
    shown = COMMENT.sub("", without_blocks(text))
    for heading in re.findall(r"^#+ +(.*?) *$", shown, re.MULTILINE):
        words = re.sub(r"\[([^]]*)\]\([^)]*\)", r"\1", heading)
        anchor = re.sub(r"[^\w\- ]", "", words.lower()).replace(" ", "-")
        counts[anchor] = counts.get(anchor, 0) + 1
    return {
        f"{anchor}-{number}" if number else anchor
        for anchor, count in counts.items()
        for number in range(count)
    }


def leads(page: Path, target: str) -> bool:
    """Tells whether a link of this page leads to a file, and to a heading in it.

    A link to another site is taken to do so.
    """
    if re.match(r"[a-z]+:", target):
        return True
    name, _, anchor = target.partition("#")
    at = page.parent / name if name else page
    return at.exists() and (not anchor or (at.is_file() and anchor in anchors_of(at.read_text())))


def lost_links(page: Path) -> list[str]:
    """Returns the links of a page that lead nowhere, each with the page's name and its line."""
    text = page.read_text()
    return [
        f"{page.name}:{line_of(text, link.start())}: {link[0]}"
        for link in TARGET.finditer(without_code(text))
        if not leads(page, link[0])
    ]
