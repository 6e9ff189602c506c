"""Writes the Cargo workspace: our crates as Rust, the shims, the crate for Rust, other crates."""
from __future__ import annotations

import contextlib
import fcntl
import os
import re
import shutil
from pathlib import Path
from typing import Dict, Iterator, NamedTuple, Optional, Set

from . import manifests, others
from .inlining import inlined
from .refused import Refused
from .sources import files_of, stripped

TOP = Path(__file__).resolve().parents[2]
MADE = ("crates", "shims", "vintsaky")  # the folders of the workspace that have no other file
Files = Dict[str, str]  # the texts of files, by their paths in the workspace
# Of an object of the library: the calls that return its size and its alignment.
SIZES = re.compile(
    r"fn vintsaky_(\w+)_bytes\(\)[^{]*\{\s*size_of::<(\w+)>\(\)\s*\}.*?align_of::<(\w+)>\(\)", re.S
)


def crate_files(top: Path, crate: manifests.Crate) -> Files:
    """Returns the files of a crate."""
    files: Files = {}
    folder, to = top / "crates" / crate.name / "src", f"crates/{crate.name}"
    shims: Set[str] = set()
    test_shims: Set[str] = set()
    for path, is_test in files_of(folder).items():
        try:
            text = stripped((folder / path).read_text(), is_test, f"{crate.name}/src/{path}")
        except Refused as refused:
            refused.path = f"{to}/src/{path}"
            raise
        if crate.is_for_c:
            text = with_sizes(text, (top / "library/vintsaky.h").read_text())
        if not is_test:
            text = inlined(text)
        named = {shim for shim in manifests.SHIMS if f"{shim}::" in text}
        (test_shims if is_test else shims).update(named)
        files[f"{to}/src/{path.with_suffix('.rs')}"] = text
    if crate.is_for_c:
        files[f"{to}/build.rs"] = manifests.BUILD_OF_LIBRARY % crate.name
    with_shims = crate._replace(needs=[*crate.needs, *sorted(shims)])
    files[f"{to}/Cargo.toml"] = manifests.manifest(
        with_shims, (folder / "main.rt").is_file(), sorted(test_shims - shims)
    )
    return files


def with_sizes(text: str, header: str) -> str:
    """Returns a source that compiles only where the header gives enough memory to each object."""
    lines = ""
    for name, size, align in SIZES.findall(text):
        most, multiple = (
            re.findall(rf"#define VINTSAKY_{constant} \(\(size_t\)(\d+)\)", header)[0]
            for constant in (f"{name.upper()}_BYTES", "ALIGN")
        )
        fits = f"size_of::<{size}>() <= {most} && {multiple} % align_of::<{align}>() == 0"
        lines += f"const _: () = assert!({fits});\n"
    return f"{text}\n// vintsaky.h says how much memory a caller gives.\n{lines}" if lines else text


def copied_files(folder: Path, to: str) -> Files:
    """Returns the files below a folder that are copied into a folder of the workspace."""
    paths = (
        path
        for path in sorted(folder.rglob("*"))
        if path.is_file() and "target" not in path.relative_to(folder).parts
    )
    return {f"{to}/{path.relative_to(folder)}": path.read_text() for path in paths}


def workspace_files(top: Path) -> Files:
    """Returns the files of the workspace except its manifest."""
    files: Files = {}
    for crate in manifests.crates_in((top / "crates.txt").read_text()):
        files.update(crate_files(top, crate))
    files.update(copied_files(top / "cargo/shims", "shims"))
    files.update(copied_files(top / "library/rust", "vintsaky"))
    return files


def write(path: Path, text: str) -> None:
    """Writes a file where it has another text, so that cargo only builds again what has changed."""
    if not path.is_file() or path.read_text() != text:
        path.parent.mkdir(parents=True, exist_ok=True)
        path.write_text(text)


def write_files(workspace: Path, files: Files) -> None:
    """Writes the files of the workspace, and removes what else is in its folders."""
    for path, text in files.items():
        write(workspace / path, text)
    for folder in MADE:
        for file in (workspace / folder).rglob("*"):
            if file.is_file() and str(file.relative_to(workspace)) not in files:
                file.unlink()
        for inner in sorted((workspace / folder).glob("**"), reverse=True):
            if inner.is_dir() and not any(inner.iterdir()):
                inner.rmdir()


def refuse_other_files(workspace: Path) -> None:
    """Refuses a folder that has other files: they would be removed."""
    made = workspace / "Cargo.toml"
    is_ours = made.is_file() and made.read_text().startswith(manifests.MARK)
    if not is_ours and workspace.exists() and (not workspace.is_dir() or any(workspace.iterdir())):
        wanted = "name a folder that is empty, or that cargo/strip made"
        raise others.Missing(f"{workspace} has files of others: {wanted}")


@contextlib.contextmanager
def locked(workspace: Path) -> Iterator[None]:
    """Keeps others from writing the workspace meanwhile."""
    workspace.mkdir(parents=True, exist_ok=True)
    lock = os.open(workspace, os.O_RDONLY)
    try:
        fcntl.flock(lock, fcntl.LOCK_EX)
        yield
    finally:
        os.close(lock)


class Workspace(NamedTuple):
    """What was written: where the other crates are from, and their versions by their names."""

    origin: others.Origin
    versions: Dict[str, str]


def make(workspace: Path, origin: Optional[others.Origin] = None) -> Workspace:
    """Writes the workspace. The other crates are only taken from this origin, where it is given."""
    refuse_other_files(workspace)
    files = workspace_files(TOP)
    folders = [path.rpartition("/")[0] for path in files if path.endswith("/Cargo.toml")]
    members = sorted({folder for folder in folders if folder.count("/") <= 1})
    version = manifests.version_of((TOP / "crates/cli/src/lib.rt").read_text())
    found = others.find(manifests.OTHERS, origin)
    with locked(workspace):
        paths: Dict[str, str] = {}
        if found.origin is others.Origin.REGISTRY:
            shutil.rmtree(workspace / "others", ignore_errors=True)
        else:
            paths = others.copy(workspace, found.folders)
        write(workspace / "Cargo.toml", manifests.workspace(members, version, paths))
        write_files(workspace, files)
    named = {
        crate.name: crate.version
        for crate in sorted(found.folders)
        if crate.name in manifests.OTHERS
    }
    return Workspace(found.origin, named)
