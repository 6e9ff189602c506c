"""Finds the other crates: in cargo's registry, or else as Debian's packages have them.

Debian's are copied into the workspace, and each manifest says by `path` where its dependencies are.
So a program elsewhere can depend on a crate of the workspace by its path, without a network.
"""
from __future__ import annotations

import enum
import json
import os
import re
import shutil
import subprocess
import tempfile
from pathlib import Path
from typing import Callable, Dict, Mapping, NamedTuple, Optional

DEBIAN = Path("/usr/share/cargo/registry")
PACKAGES = (
    "librust-arrayvec-dev librust-thiserror-dev librust-rand-pcg-dev librust-rand-core-dev"
    " librust-clap-dev"
)
# A table of a manifest on a dependency.
TABLE = re.compile(
    r"(?m)^\[(?:target\..*\.)?(?:dependencies|build-dependencies)\."
    r'(?P<quoted>"?)(?P<name>[\w-]+)(?P=quoted)\]\n(?P<rows>(?:(?!\[).*\n?)*)'
)
RENAMED = re.compile(r'(?m)^package = "([^"]+)"')
CHANGED = (
    "# Changed by cargo/strip: each `path` says where a crate lies, and no warning is shown.\n"
)
QUIET = '\n[lints.rust]\nwarnings = "allow"\n'  # as cargo shows none of a crate of its registry
OLDEST = 87  # the second number of the first cargo, and of the first rustc, that build it
TIMEOUT = 120  # seconds after which cargo is taken not to reach its registry


class Missing(Exception):
    """Something is missing for a workspace, or is in its place."""


class Origin(enum.Enum):
    """Where the other crates are from, as an argument and in words."""

    REGISTRY = "registry"
    DEBIAN = "debian"

    def __str__(self) -> str:
        return "cargo's registry" if self is Origin.REGISTRY else "Debian's packages"


class OtherCrate(NamedTuple):
    """A crate of other people."""

    name: str
    version: str

    def __str__(self) -> str:
        return f"{self.name}-{self.version}"


Folders = Dict[OtherCrate, Path]


class Found(NamedTuple):
    """Where the other crates are from, and the folder of each."""

    origin: Origin
    folders: Folders


PROBE = """\
[package]
name = "probe"
version = "0.0.0"
edition = "2024"
rust-version = "1.87"

[dependencies]
"""


def cargo(folder: Path, *words: str) -> Optional[str]:
    """Returns what cargo prints of the package in a folder, or None where it fails."""
    quick = {"CARGO_NET_RETRY": "0", "CARGO_HTTP_TIMEOUT": "20"}
    command = ["cargo", *words, "--manifest-path", str(folder / "Cargo.toml")]
    try:
        done = subprocess.run(
            command,
            cwd=folder,
            env={**os.environ, **quick},
            stdin=subprocess.DEVNULL,
            capture_output=True,
            text=True,
            timeout=TIMEOUT,
        )
    except subprocess.TimeoutExpired:
        return None
    return done.stdout if done.returncode == 0 else None


def need_cargo() -> None:
    """Raises an error where there is no cargo that is new enough."""
    command = ["cargo", "--version"]
    try:
        done = subprocess.run(command, capture_output=True, text=True, stdin=subprocess.DEVNULL)
    except FileNotFoundError:
        raise Missing(f"there is no cargo: 1.{OLDEST} or later is needed") from None
    if is_too_old(done.stdout):
        wanted = f"1.{OLDEST} or later is needed (on Debian rustc-web and cargo-web)"
        raise Missing(f"{done.stdout.strip()} is too old: {wanted}")


def is_too_old(version: str) -> bool:
    """Tells whether a cargo that prints this version is too old."""
    found = re.match(r"cargo 1\.(\d+)\.", version)
    return found is not None and int(found[1]) < OLDEST


def write_probe(folder: Path, wanted: Mapping[str, str]) -> None:
    """Writes a package that needs only the other crates, for which cargo has to find them."""
    (folder / "src").mkdir()
    (folder / "src/lib.rs").touch()
    rows = [f"{name} = {{ {what} }}\n" for name, what in wanted.items()]
    (folder / "Cargo.toml").write_text(PROBE + "".join(rows))


def dependencies(folder: Path, *words: str) -> Optional[Folders]:
    """Returns the folders of the crates that cargo takes for a package, or None."""
    output = cargo(folder, "metadata", "--offline", "--format-version", "1", *words)
    if output is None:
        return None
    return {
        OtherCrate(package["name"], package["version"]): Path(package["manifest_path"]).parent
        for package in json.loads(output)["packages"]
        if package["source"]
    }


def in_registry(folder: Path) -> Optional[Folders]:
    """Returns those of cargo's registry, if cargo has them or gets them."""
    if cargo(folder, "fetch", "--offline") is None and cargo(folder, "fetch") is None:
        return None
    return dependencies(folder)


def in_debian(folder: Path) -> Optional[Folders]:
    """Returns those of Debian's packages, if these are installed."""
    source = f'source.debian.directory="{DEBIAN}"'
    replaced = 'source.crates-io.replace-with="debian"'
    return dependencies(folder, "--config", replaced, "--config", source)


FINDERS: Dict[Origin, Callable[[Path], Optional[Folders]]] = {
    Origin.REGISTRY: in_registry,
    Origin.DEBIAN: in_debian,
}


def find(wanted: Mapping[str, str], only: Optional[Origin] = None) -> Found:
    """Returns where the other crates are, of this origin where it is given."""
    with tempfile.TemporaryDirectory() as name:
        folder = Path(name)
        write_probe(folder, wanted)
        for origin, finder in FINDERS.items():
            folders = finder(folder) if only in (None, origin) else None
            if folders is not None:
                return Found(origin, folders)
            (folder / "Cargo.lock").unlink(missing_ok=True)
    reason = "cargo doesn't reach its registry"
    if only is not Origin.REGISTRY:
        reason += f", and Debian's packages are not all here: apt-get install {PACKAGES}"
    raise Missing(reason)


def with_paths(manifest: str, folders: Folders) -> str:
    """Returns a manifest with the path of each of these crates that it depends on."""

    def with_path(table: re.Match[str]) -> str:
        renamed = RENAMED.search(table["rows"])
        name = renamed[1] if renamed else table["name"]
        crates = [crate for crate in folders if crate.name == name]
        if not crates:
            return table[0]
        head, rest = table[0].split("\n", 1)
        return f'{head}\npath = "../{crates[0]}"\n{rest}'

    text = CHANGED + TABLE.sub(with_path, manifest)
    return text if "[lints" in text else text + QUIET


def crate_files(folder: Path, folders: Folders) -> Dict[Path, bytes]:
    """Returns the files of a crate as the workspace has them, by their paths."""
    files: Dict[Path, bytes] = {}
    for file in folder.rglob("*"):
        path = file.relative_to(folder)
        is_hidden = any(part.startswith(".") for part in path.parts)
        if file.is_file() and path.name != "Cargo.toml.orig" and not is_hidden:
            files[path] = file.read_bytes()
    files[Path("Cargo.toml")] = with_paths((folder / "Cargo.toml").read_text(), folders).encode()
    return files


def write_files(folder: Path, files: Mapping[Path, bytes]) -> None:
    """Makes these the files of a folder.

    A file that is the same isn't written, or cargo would build again what depends on it.
    """
    for file in list(folder.rglob("*")):
        if file.is_file() and file.relative_to(folder) not in files:
            file.unlink()
    for path, data in files.items():
        file = folder / path
        if not file.is_file() or file.read_bytes() != data:
            file.parent.mkdir(parents=True, exist_ok=True)
            file.write_bytes(data)


def copy(workspace: Path, folders: Folders) -> Dict[str, str]:
    """Copies the crates into the workspace, and returns the folder of each by its name."""
    names = {str(crate) for crate in folders}
    for folder in (workspace / "others").glob("*"):
        if folder.name not in names:
            shutil.rmtree(folder)
    for crate, folder in sorted(folders.items()):
        write_files(workspace / f"others/{crate}", crate_files(folder, folders))
    return {crate.name: f"others/{crate}" for crate in folders}
