"""The files that are read, and those that are made of them."""
from __future__ import annotations

from itertools import zip_longest
from pathlib import Path
from typing import Callable, Dict, List, NamedTuple, Optional

from . import header, python, sentences
from .texts import Files, Mistake

# what is read, by patterns from the top of the repository
READ = (
    "crates/vintsaky/src/**/*.rt",
    "crates/vintsaky_calls/src/*.rt",
    sentences.DEFINITION,
    "crates/go_board/src/**/*.rt",
    "crates/gtp_match/src/**/*.rt",
    "crates/gtp_wire/src/**/*.rt",
    "library/declaring/*.in",
    "library/vintsaky.h",
    "library/rust/src/**/*.rs",
    "library/python/vintsaky/*.py",
)
MADE: Dict[str, Callable[[Files], str]] = {
    sentences.CODE: sentences.code,
    sentences.DEFINITION: sentences.definition,
    header.PATH: header.made,
    sentences.RUST: sentences.rust,
    python.DECLARED: python.declared,
    python.NUMBERS: python.named,
}


def read(top: Path) -> Files:
    """Returns each file that is read: its text, by its path from the top."""
    paths = sorted(path for pattern in READ for path in top.glob(pattern) if path.is_file())
    return {path.relative_to(top).as_posix(): path.read_text(encoding="utf-8") for path in paths}


def made(files: Files) -> Dict[str, str]:
    """Returns each file that is made: its text, by its path from the top."""
    return {path: make(files) for path, make in MADE.items()}


def write(top: Path) -> List[str]:
    """Writes the files that are made where they differ. Returns their paths."""
    files = read(top)
    changed = {path: text for path, text in made(files).items() if files.get(path) != text}
    for path, text in changed.items():
        at = top / path
        at.parent.mkdir(parents=True, exist_ok=True)
        at.write_text(text, encoding="utf-8")
    return list(changed)


class Difference(NamedTuple):
    """The number of a line in which a text differs, that line as it is wanted, and as it is."""

    number: int
    wanted: str
    line: str


def first_difference(wanted: str, text: str) -> Difference:
    """Returns the first line in which two texts differ."""
    pairs = zip_longest(wanted.splitlines(), text.splitlines())
    number, (ours, theirs) = next(it for it in enumerate(pairs, 1) if it[1][0] != it[1][1])
    return Difference(number, shown(ours), shown(theirs))


def shown(line: Optional[str]) -> str:
    """Returns a line as it is shown, or that there is none."""
    return "the end" if line is None else f"'{line.strip()}'"


def differing(files: Files) -> List[str]:
    """Returns a line for each file that isn't as it is made."""
    lines = []
    for path, make in MADE.items():
        try:
            wanted = make(files)
        except Mistake as mistake:
            if str(mistake) not in lines:
                lines.append(str(mistake))
            continue
        if path not in files:
            lines.append(f"{path} isn't there: library/declare writes it")
        elif files[path] != wanted:
            number, ours, line = first_difference(wanted, files[path])
            lines.append(f"{path}:{number}: {line} in place of {ours}: library/declare writes it")
    return lines
