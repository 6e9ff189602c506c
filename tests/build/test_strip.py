"""cargo/strip: what it refuses, what it leaves as it is, and what it writes."""
from __future__ import annotations

import os
import shutil
from pathlib import Path
from subprocess import CompletedProcess
from typing import Dict, NamedTuple, Optional

import pytest
from stripper import forms
from stripper.inlining import inlined
from stripper.refused import Refused
from stripper.sources import files_of, stripped

from tests.shared.processes import TOP, run

from .stripped_sources import REFUSED, UNCHANGED


def refused_as(source: str, path: str = "") -> Optional[str]:
    """Returns the name of the form as which a source is refused, or None."""
    try:
        stripped(source, path=path)
    except Refused as refused:
        name: str = refused.name
        return name
    return None


# ---- forms


@pytest.mark.parametrize(
    "source, form",
    [
        pytest.param(source, form, id=f"{form}: {source!r}")
        for form, sources in REFUSED.items()
        for source in sources
    ],
)
def test_form_is_refused(source: str, form: str) -> None:
    assert refused_as(source) == form


def test_each_form_has_a_source() -> None:
    names = {form.name for form in [*forms.UNKNOWN, *forms.SILENT]}
    names |= {shape.name for shape in forms.SHAPES}
    assert names <= set(REFUSED)


class TraitSource(NamedTuple):
    """A source that declares a trait, by its path below crates/, and as what it is refused."""

    path: str
    source: str
    refused: Optional[str]


# Three traits may name a method as std does.
TRAITS = [
    TraitSource(
        "byte_streams/src/streams.rt", "trait Incoming {\n    fn read(&mut self) -> u8;\n}\n", None
    ),
    TraitSource(
        "gtp_process/src/starter.rt", "trait Process {\n    fn flush(&mut self) -> u8;\n}\n", None
    ),
    TraitSource(
        "gtp_process/src/starter.rt",
        "trait Incoming {\n    fn read(&mut self) -> u8;\n}\n",
        "method of std",
    ),
    TraitSource(
        "gtp_wire/src/lines.rt",
        "trait Incoming {\n    fn read(&mut self) -> u8;\n}\n",
        "method of std",
    ),
    TraitSource(
        "gtp_wire/src/lines.rt", "trait Starter {\n    fn start(&mut self) -> u8;\n}\n", None
    ),
]


@pytest.mark.parametrize("row", TRAITS, ids=lambda row: f"{row.path}: {row.source!r}")
def test_trait_with_a_method_of_std(row: TraitSource) -> None:
    assert refused_as(row.source, row.path) == row.refused


@pytest.mark.parametrize("source", UNCHANGED, ids=repr)
def test_rust_is_left_as_it_is(source: str) -> None:
    assert stripped(source) == source


class Rewriting(NamedTuple):
    """A source, and the Rust that it becomes."""

    source: str
    rust: str


REWRITTEN = [
    Rewriting(
        """\
fn f() /* why */
{
    g();
}
""",
        "fn f() /* why */ {\n    g();\n}\n",
    ),
    Rewriting(
        """\
//! It is small.
#![allow(a)]

ghost use a::b;

fn f() {}
""",
        """\
//! It is small.
#![allow(a)]

fn f() {}
""",
    ),
    Rewriting(
        """\
#[cycle(a)]
#[derive(Drop)]
ghost use a::b;
fn f() {}
""",
        "fn f() {}\n",
    ),
    Rewriting(
        """\
struct S {
    ghost few: "{",
    n: u8,
}
""",
        "struct S {\n    n: u8,\n}\n",
    ),
    Rewriting(
        """\
fn f(h: fn (u8) -> u8)
    requires { a }
{
}
""",
        """\
/// # Contract
///
/// ```text
/// requires { a }
/// ```
fn f(h: fn (u8) -> u8) {
}
""",
    ),
    Rewriting(
        'pub unsafe extern "C" fn f(a: (u8, u8), x: &[u8]) {\n}\n',
        """\
pub unsafe extern "C" fn f(a: (u8, u8), x: *const u8, x_len: usize) {
    let x = unsafe { kit_ffi::slice(x, x_len) };
}
""",
    ),
    Rewriting(
        """\
#[derive(Clone, Drop)]
struct S;

#[derive(Drop)]
struct R;
""",
        """\
#[derive(Clone)]
struct S;

struct R;
""",
    ),
    Rewriting(
        "fn f<T: Drop, U: Ord + Drop>(it: T) {}\n",
        "fn f<T, U: Ord>(it: T) {}\n",
    ),
    Rewriting(
        """\
struct S {
    n: u8,
    // It is small.
    ghost few: { n < 9 },
}
""",
        "struct S {\n    n: u8,\n}\n",
    ),
    Rewriting(
        """\
use a::b;
ghost use c::{d};

fn f() {}
""",
        "use a::b;\n\nfn f() {}\n",
    ),
    Rewriting(
        """\
/// Adds.
#[inline]
pub fn f(n: u8) -> u8
    requires { n < 9 }
    // It is more.
    ensures more { result ≡ n + 1 }
{
    n + 1
}
""",
        """\
/// Adds.
///
/// # Contract
///
/// ```text
/// requires { n < 9 }
/// // It is more.
/// ensures more { result ≡ n + 1 }
/// ```
#[inline]
pub fn f(n: u8) -> u8 {
    n + 1
}
""",
    ),
    Rewriting(
        """\
#[unsafe(no_mangle)]
pub extern "C" fn f(s: &S, to: &mut [u8], a: &[u8]) -> u8 {
    0
}
""",
        """\
///
/// # Safety
///
/// Each pointer is that of as many items as the length behind it says, or the length is 0.
#[unsafe(no_mangle)]
pub unsafe extern "C" fn f(s: &S, to: *mut u8, to_len: usize, a: *const u8, a_len: usize) -> u8 {
    let to = unsafe { kit_ffi::slice_mut(to, to_len) };
    let a = unsafe { kit_ffi::slice(a, a_len) };
    0
}
""",
    ),
]


@pytest.mark.parametrize("row", REWRITTEN, ids=lambda row: repr(row.source))
def test_source_becomes_rust(row: Rewriting) -> None:
    assert stripped(row.source) == row.rust


def test_short_function_is_inlined() -> None:
    short = "fn f() -> u8 {\n    1\n}\n"
    assert inlined(short) == f"#[inline]\n{short}"


@pytest.mark.parametrize(
    "source",
    [
        pytest.param(
            "    #[inline(always)]\n    fn f() {\n        g();\n    }\n", id="one that is marked"
        ),
        pytest.param("fn f() {\n" + "    g();\n" * 8 + "}\n", id="one of ten lines"),
        pytest.param(
            "trait T {\n    fn f(&self) -> [u8; 2];\n\n    fn g(\n        &self,\n    );\n}\n",
            id="one without a body",
        ),
    ],
)
def test_other_function_is_not_inlined(source: str) -> None:
    assert inlined(source) == source


# ---- files


@pytest.fixture
def crate(tmp_path: Path) -> Path:
    """Returns the sources of a crate, which has code and tests."""
    (tmp_path / "tests").mkdir()
    (tmp_path / "lib.rt").write_text("pub mod code;\n#[cfg(test)]\nmod tests;\n")
    (tmp_path / "tests.rt").write_text("mod row;\n")
    (tmp_path / "code.rt").touch()
    (tmp_path / "tests/row.rt").touch()
    return tmp_path


def test_files_of_a_crate(crate: Path) -> None:
    is_test = {str(path): of_tests for path, of_tests in files_of(crate).items()}
    wanted = {"lib.rt": False, "code.rt": False, "tests.rt": True, "tests/row.rt": True}
    assert is_test == wanted


def test_file_of_no_module_is_refused(crate: Path) -> None:
    (crate / "lost.rt").touch()
    with pytest.raises(Refused) as raised:
        files_of(crate)
    assert raised.value.why == "no `mod` names lost.rt"


def test_link_is_refused(crate: Path) -> None:
    (crate / "tests/row.rt").unlink()
    (crate / "tests/row.rt").symlink_to(crate / "code.rt")
    with pytest.raises(Refused) as raised:
        files_of(crate)
    assert raised.value.name == "link"


# ---- the workspace


def copied(folder: Path, umask: int = 0o022) -> Path:
    """Returns a copy of what the stripper reads, as a clone with this umask has it."""
    names = run(["git", "ls-files", "-z", "crates.txt", "crates/*.rt", "cargo", "library"], cwd=TOP)
    for name in names.stdout.split("\0")[:-1]:
        if (TOP / name).is_file():
            (folder / name).parent.mkdir(parents=True, exist_ok=True)
            shutil.copyfile(TOP / name, folder / name)
            mode = 0o777 if os.access(TOP / name, os.X_OK) else 0o666
            (folder / name).chmod(mode & ~umask)
    return folder


def files_below(folder: Path) -> Dict[str, bytes]:
    """Returns the bytes of each file below a folder, by its path."""
    files = (path for path in folder.rglob("*") if path.is_file())
    return {str(path.relative_to(folder)): path.read_bytes() for path in files}


def strip(clone: Path, *words: object) -> CompletedProcess[str]:
    """Returns what comes of cargo/strip of a clone, where cargo reaches no network."""
    environment = {**os.environ, "CARGO_NET_OFFLINE": "true"}
    return run([clone / "cargo/strip", *words], cwd=clone.parent, env=environment)


@pytest.mark.cargo
def test_two_clones_make_the_same_workspace(tmp_path: Path) -> None:
    made = []
    for name, umask in (("one", 0o022), ("another_clone", 0o077)):
        clone = copied(tmp_path / name, umask)
        done = strip(clone)
        assert done.returncode == 0, done.stdout + done.stderr
        made.append(files_below(clone / "cargo/workspace"))
    assert len(made[0]) > 300
    assert [path for path in made[0] if made[0][path] != made[1].get(path)] == []


@pytest.mark.cargo
def test_folder_with_other_files_is_left_alone(tmp_path: Path) -> None:
    clone = copied(tmp_path / "clone")
    before = files_below(clone)
    done = strip(clone, clone)
    reason = "has files of others: name a folder that is empty, or that cargo/strip made"
    assert (done.returncode, done.stdout + done.stderr) == (1, f"strip: {clone} {reason}\n")
    assert files_below(clone) == before


@pytest.mark.cargo
def test_refusal_says_where_the_form_is(tmp_path: Path) -> None:
    clone = copied(tmp_path / "clone")
    source = clone / "crates/go_base/src/sizes.rt"
    text = source.read_text() + "\nmacro_rules! m { () => {}; }\n"
    source.write_text(text + "fn f() -> u8 { (0u8..).take(3).sum() }\n")
    place = f"crates/go_base/src/sizes.rt:{text.count(chr(10)) + 1}"
    reason = "range with no end: it overflows in Rust, and ends in the kit"
    done = strip(clone, "--others", "debian", tmp_path / "workspace")
    assert (done.returncode, done.stdout) == (1, "")
    assert done.stderr == f"strip: {place}: {reason}\n"
