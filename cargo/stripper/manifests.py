"""The manifests of the workspace."""
from __future__ import annotations

import re
from typing import Iterator, List, Mapping, NamedTuple, Sequence

# What the workspace's manifest says of each other crate. The kit's ports of the last two have
# another interface, for which there is a shim.
OTHERS = {
    "arrayvec": 'version = "0.7.2", default-features = false',
    "thiserror": 'version = "1.0.38"',
    "rand_pcg": 'version = "0.3.1", default-features = false',
    "rand_core": 'version = "0.6.3", default-features = false',
    "clap": 'version = "4.0.32", default-features = false, features = '
    '["std", "help", "usage", "error-context", "suggestions", "string"]',
}
# The crates that cargo builds where none is named.
BUILT = ("gtp_check", "gtp_engine", "twogtp", "vintsaky")
SHIMMED = ("rand_core", "clap", "libc")
SHIMS = ("kit_ffi", "kit_simd", "kit_std")
# Why each lint of clippy is allowed. The sources are proved as they are, and a change has to make
# them better in itself.
LINTS = """\
[workspace.lints.rust]
unexpected_cfgs = { level = "warn", check-cfg = ["cfg(kit_portable)"] }
# The check wants an import, or a field, that Rust has no use for.
unused_imports = "allow"
dead_code = "allow"
# A test is given the runtime, which it needs for an assertion in the kit alone.
unused_variables = "allow"
# A function of the library is unsafe as a whole where a C caller passes pointers.
unsafe_op_in_unsafe_fn = "allow"
mismatched_lifetime_syntaxes = "allow"

[workspace.lints.clippy]
# The check proves a `match` or an `if` without help. In a closure it wants clauses.
manual_map = "allow"
manual_ok_err = "allow"
match_like_matches_macro = "allow"
single_match = "allow"
manual_contains = "allow"
# The kit's numbers lack these calls, or they aren't proved as plainly.
manual_is_multiple_of = "allow"
manual_range_contains = "allow"
manual_div_ceil = "allow"
len_zero = "allow"
# Memory is taken nowhere, so no variant can be boxed.
large_enum_variant = "allow"
# A `Default` is an impl more to prove, which nobody calls.
new_without_default = "allow"
# An index is proved to be in its bounds, and is used for more than one list.
needless_range_loop = "allow"
# The check wants the reference to be followed, and the lifetime to be named.
explicit_auto_deref = "allow"
needless_lifetimes = "allow"
# A record of arguments would say the same.
too_many_arguments = "allow"
type_complexity = "allow"
"""
# The name by which programs load the library, which cargo doesn't give it.
BUILD_OF_LIBRARY = """\
//! Gives the shared library its name for programs, where the linker takes one.

fn main() {
    if std::env::var("CARGO_CFG_TARGET_OS").as_deref() == Ok("linux") {
        println!("cargo::rustc-cdylib-link-arg=-Wl,-soname,lib%s.so.1");
    }
    println!("cargo::rerun-if-changed=build.rs");
}
"""
MARK = "# Made by cargo/strip."  # how the workspace's manifest begins
WORKSPACE = """\
# Made by cargo/strip. Change the sources, and make it again.
[workspace]
resolver = "3"
members = [{members}]
default-members = [{built}]
exclude = ["others"]

[workspace.package]
version = "{version}"
edition = "2024"
rust-version = "1.87"
publish = false

[workspace.dependencies]
{others}
{lints}
[profile.release]
lto = "fat"
codegen-units = 1
panic = "abort"

# The tests look for overflows, and are not slow.
[profile.dev]
opt-level = 1
debug = false
"""


class Crate(NamedTuple):
    """A row of crates.txt: a crate, whether it is a library for C, and what it depends on."""

    name: str
    is_for_c: bool
    needs: List[str]


def crates_in(listing: str) -> Iterator[Crate]:
    """Yields the rows of crates.txt."""
    for line in listing.splitlines():
        head, colon, needs = line.split("#")[0].partition(":")
        if colon:
            name, *kind = head.split()
            yield Crate(name, "staticlib" in kind, needs.split())


def dependency(name: str) -> str:
    """Returns what a crate's manifest says of one that it depends on."""
    if name in SHIMMED:
        return f'{name} = {{ package = "kit_{name}", path = "../../shims/{name}" }}'
    if name in OTHERS:
        return f"{name}.workspace = true"
    return f'{name} = {{ path = "../{"../shims/" if name in SHIMS else ""}{name}" }}'


def manifest(crate: Crate, is_program: bool, test_needs: Sequence[str]) -> str:
    """Returns the manifest of a crate, whose tests need these crates too."""
    name = crate.name
    package = f"{name}_c" if crate.is_for_c else name
    inherited = "".join(
        f"{key}.workspace = true\n" for key in ("version", "edition", "rust-version", "publish")
    )
    text = f'[package]\nname = "{package}"\n{inherited}\n[lints]\nworkspace = true\n'
    if crate.is_for_c:
        text += f'\n[lib]\nname = "{name}"\ncrate-type = ["staticlib", "cdylib"]\ndoc = false\n'
    if is_program:
        text += f'\n[[bin]]\nname = "{name}"\npath = "src/main.rs"\ntest = false\n'
    text += "\n[dependencies]\n" + "".join(f"{dependency(need)}\n" for need in crate.needs)
    if test_needs:
        text += "\n[dev-dependencies]\n" + "".join(f"{dependency(need)}\n" for need in test_needs)
    return text


def workspace(members: Sequence[str], version: str, paths: Mapping[str, str]) -> str:
    """Returns the manifest of the workspace, which names the paths of these other crates."""
    others = ""
    for name, wanted in OTHERS.items():
        where = f', path = "{paths[name]}"' if paths else ""
        others += f"{name} = {{ {wanted}{where} }}\n"
    quoted = ", ".join(f'"{member}"' for member in members)
    built = ", ".join(f'"crates/{name}"' for name in BUILT)
    return WORKSPACE.format(
        members=quoted, built=built, version=version, others=others, lints=LINTS
    )


def version_of(cli: str) -> str:
    """Returns the version of all crates as Cargo writes it, by the text of one that names it."""
    (version,) = re.findall(r'pub const VERSION: &str = "([0-9.]+)";', cli)
    return ".".join([*version.split("."), "0", "0"][:3])
