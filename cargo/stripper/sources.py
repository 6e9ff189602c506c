"""One source of a crate: whether it is only for tests, and the Rust that it becomes."""
from __future__ import annotations

import re
from pathlib import Path
from typing import Dict

from .contracts import documented
from .forms import refuse_what_differs, refuse_what_is_unknown
from .refused import Refused
from .rewriting import Code, add_safety, rewrite
from .scanner import parts_of

# What std has only in the kit, or with other calls there.
OF_KIT = re.compile(
    r"\b(?:HostRuntime|Vec|String|Global|AllocError|AllocFailed|Abort|AsStr)\b"
    r"|\bstd::(?:alloc|env|fs|os|process|rc|test|time)\b|\bstd::io::[^;]*\bStd(?:in|out|err)\b"
)
FOR_TESTS = re.compile(r"#\[cfg\(test\)\]\s*(?:pub(?:\([^)]*\))?\s+)?mod\s+(\w+)\s*;")
MODULE = re.compile(r"\bmod\s+(\w+)\s*;")
PRELUDE = "#[allow(unused_imports)]\nuse kit_std::prelude::*;\n"
OWN_MAIN = "#![cfg_attr(all(unix, not(kit_portable)), no_main)]\n"


def files_of(folder: Path) -> Dict[Path, bool]:
    """Returns whether each source of a crate is only for tests, by its path below src/."""
    for path in [folder.parent, folder, *sorted(folder.rglob("*"))]:
        if path.is_symlink():
            raise Refused("link", f"{path.name} is a link, and what it leads to may be elsewhere")
    found: Dict[Path, bool] = {}

    def walk(path: Path, below: Path, is_test: bool) -> None:
        found[path.relative_to(folder)] = is_test
        text = path.read_text()
        for_tests = set(FOR_TESTS.findall(text))
        for name in MODULE.findall(text):
            for inner in (below / f"{name}.rt", below / name / "mod.rt"):
                if inner.is_file():
                    walk(inner, below / name, is_test or name in for_tests)

    for root in ("lib.rt", "main.rt"):
        if (folder / root).is_file():
            walk(folder / root, folder, False)
    missed = sorted({path.relative_to(folder) for path in folder.rglob("*.rt")} - set(found))
    if missed:
        raise Refused("file of no module", f"no `mod` names {missed[0]}")
    return found


def with_prelude(text: str) -> str:
    """Returns the text, with the import of the shim's names above its first item.

    A program has C's `main`: Rust's own would open the standard streams that are closed.
    """
    head = OWN_MAIN if "kit_std::main!" in text else ""
    lines = (head + text).splitlines(keepends=True)
    at = 0
    while at < len(lines) and (lines[at].startswith(("//!", "#![")) or not lines[at].strip()):
        at += 1
    return "".join(lines[:at]) + "\n" + PRELUDE + "".join(lines[at:])


def stripped(text: str, is_test: bool = False, path: str = "") -> str:
    """Returns the Rust that a source becomes, or refuses it. The path is that below crates/."""
    parts = documented(parts_of(text))
    refuse_what_differs(parts, path)
    code = Code(parts)
    needs_kit = bool(OF_KIT.search(code.text))
    rewrite(code, needs_kit)
    refuse_what_is_unknown(re.sub("\0\\d+\0", " ", code.text), is_test)
    add_safety(code)
    return with_prelude(code.whole()) if needs_kit else code.whole()
