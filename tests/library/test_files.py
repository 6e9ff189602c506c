"""The files of the library: its header, archive and shared library, and what is linked with them.

Of a library by cargo the objects may be smaller than the header says, it may ask for what Rust's
library does, and its archive has that library's names besides.
"""
from __future__ import annotations

import os
import re
import shutil
from pathlib import Path
from typing import Iterator, List, NamedTuple, Set

import pytest

from tests.shared.processes import TOP, run

from .compiling import (
    EACH_CALL,
    HEADER_FOLDER,
    WARNINGS,
    check_compiles,
    compile_c,
    is_proved,
    need_tools,
    said_by,
    size_flags,
)

HEADER = (TOP / "library/vintsaky.h").read_text()
ASKED = {"memcpy", "memmove", "memset"}  # what a proved library asks for
OF_C = r"(libc|libgcc_s|libm|ld-linux[a-z0-9_-]*)\.so\.[0-9]+"  # the libraries of C
EMPTY = '#include "vintsaky.h"\nint main(void) { return 0; }\n'


def calls_in(text: str) -> Set[str]:
    """Returns the calls that a text names."""
    return set(re.findall(r"(vintsaky_[a-z0-9_]*)\(", text))


# those that the header declares, but for what it writes of them itself
CALLS = {call for call in calls_in(HEADER) if not call.endswith(("_new", "_free"))}


def test_each_call_is_made() -> None:
    sources = [EACH_CALL, TOP / "tests/shared/each_call_games.h"]
    text = "".join(source.read_text() for source in sources)
    assert CALLS - calls_in(text.replace("_new(", "_place(")) == set()


# ---- what compilers say


@pytest.fixture(params=["gcc -std=c99", "clang -std=c99", "g++ -x c++", "clang++ -x c++"])
def compiler(request: pytest.FixtureRequest) -> List[str]:
    """Returns the words of a compiler, or skips the test where it isn't there."""
    words: List[str] = request.param.split()
    need_tools(words[0])
    return words


@pytest.fixture(params=["archive", "shared_library"])
def library(request: pytest.FixtureRequest) -> Path:
    """Returns one of the files of the library that programs are linked with."""
    file: Path = request.getfixturevalue(request.param)
    return file


@pytest.fixture
def empty(tmp_path: Path) -> Path:
    """Returns the source of a program that only has the header."""
    source = tmp_path / "empty.c"
    source.write_text(EMPTY)
    return source


def test_header_has_no_warning(compiler: List[str], empty: Path, tmp_path: Path) -> None:
    options = ["-O2", *WARNINGS, HEADER_FOLDER, "-c", "-o", tmp_path / "empty.o"]
    check_compiles([*compiler, *options, empty], tmp_path)


def test_program_is_linked(compiler: List[str], library: Path, empty: Path, tmp_path: Path) -> None:
    words = [*compiler, HEADER_FOLDER, "-o", tmp_path / "empty", empty, "-x", "none", library]
    assert compile_c(words, tmp_path).returncode == 0


def test_program_of_another_interface_is_not_linked(
    compiler: List[str], library: Path, empty: Path, tmp_path: Path
) -> None:
    other = HEADER.replace("vintsaky_interface_1", "vintsaky_interface_2")
    other = other.replace("VINTSAKY_INTERFACE 1", "VINTSAKY_INTERFACE 2")
    (tmp_path / "vintsaky.h").write_text(other)
    words = [*compiler, f"-I{tmp_path}", "-o", tmp_path / "empty", empty, "-x", "none", library]
    done = compile_c(words, tmp_path)
    assert done.returncode != 0
    assert set(re.findall("vintsaky_interface_[0-9]+", done.stderr)) == {"vintsaky_interface_2"}


def test_each_call_does_what_its_page_says(
    compiler: List[str], archive: Path, tmp_path: Path
) -> None:
    options = ["-O2", *WARNINGS, *size_flags(), HEADER_FOLDER, "-o", tmp_path / "calls"]
    check_compiles([*compiler, *options, EACH_CALL, "-x", "none", archive], tmp_path)
    assert said_by([tmp_path / "calls"]) == ""


# ---- what the library has, and what it asks for


class Symbol(NamedTuple):
    """A name of an object file, and its kind, a letter."""

    kind: str
    name: str


def symbols(*words: object) -> Set[Symbol]:
    """Returns what nm prints with these words."""
    need_tools("nm")
    rows = [line.split() for line in run(["nm", *words]).stdout.splitlines()]
    return {Symbol(*row[-2:]) for row in rows if len(row) > 1}


def names_of(found: Set[Symbol]) -> Set[str]:
    """Returns the names of symbols."""
    return {symbol.name for symbol in found}


def dynamic(file: Path, kind: str) -> List[str]:
    """Returns what the dynamic section of a file has of this kind."""
    need_tools("readelf")
    return re.findall(rf"\({kind}\).*\[(.*)\]", run(["readelf", "-dW", file]).stdout)


def test_shared_library_has_the_calls_of_the_header(shared_library: Path) -> None:
    assert names_of(symbols("-D", "--defined-only", shared_library)) == CALLS


def test_archive_has_the_calls_of_the_header(archive: Path) -> None:
    defined = symbols("-g", "--defined-only", archive)
    own = {it for it in defined if is_proved() or it.name.startswith("vintsaky_")}
    assert names_of(own) == CALLS
    assert {symbol.kind for symbol in own} == {"T"}, "they are all functions"


def test_archive_asks_for_little(archive: Path) -> None:
    if not is_proved():
        pytest.skip("it is not known to be proved, and cargo's has Rust's library")
    assert names_of(symbols("-u", archive)) == ASKED


def test_shared_library_asks_for_little(shared_library: Path) -> None:
    needed = dynamic(shared_library, "NEEDED")
    if is_proved():
        assert names_of(symbols("-D", "-u", shared_library)) == ASKED
        assert needed == []
    else:
        assert [name for name in needed if not re.fullmatch(OF_C, name)] == []


def test_shared_library_has_its_name(shared_library: Path) -> None:
    assert dynamic(shared_library, "SONAME") == ["libvintsaky.so.1"]


@pytest.mark.parametrize(
    "option, mark",
    [
        pytest.param("-dW", "TEXTREL", id="its text is not changed when it is loaded"),
        pytest.param("-lW", "RWE", id="nothing in it may be written and executed"),
    ],
)
def test_shared_library_is_safe_to_load(option: str, mark: str, shared_library: Path) -> None:
    need_tools("readelf")
    done = run(["readelf", option, shared_library])
    assert (done.returncode, mark in done.stdout) == (0, False)


def test_libvintsaky_so_is_the_same_file(shared_library: Path) -> None:
    assert shared_library.read_bytes() == shared_library.with_suffix("").read_bytes()


@pytest.mark.kit
def test_shared_library_is_the_same_where_it_is_linked_again(
    archive: Path, shared_library: Path, tmp_path: Path
) -> None:
    if not is_proved():
        pytest.skip("it is not known to be proved, and cargo has another linker")
    shutil.copy(archive, tmp_path / "again.a")
    command = [TOP / "packaging/shared", tmp_path / "again.a", tmp_path / "again.so"]
    assert said_by(command, cwd=TOP) == ""
    assert shared_library.read_bytes() == (tmp_path / "again.so").read_bytes()


# ---- as it is installed


@pytest.fixture
def usr(archive: Path, shared_library: Path, tmp_path: Path) -> Iterator[Path]:
    """Returns a folder in which the library is installed."""
    need_tools("pkg-config", "cc", "readelf")
    for folder in ("lib/pkgconfig", "include"):
        (tmp_path / folder).mkdir(parents=True)
    for file in (archive, shared_library):
        shutil.copy(file, tmp_path / "lib")
    (tmp_path / "lib/libvintsaky.so").symlink_to("libvintsaky.so.1")
    (tmp_path / "include/vintsaky.h").write_text(HEADER)
    found = run([TOP / "packaging/pkg_config", tmp_path], cwd=TOP).stdout
    (tmp_path / "lib/pkgconfig/vintsaky.pc").write_text(found)
    yield tmp_path


def pkg_config(usr: Path, *words: str) -> str:
    """Returns what pkg-config says of the library that is installed there."""
    environment = {**os.environ, "PKG_CONFIG_PATH": f"{usr}/lib/pkgconfig"}
    return said_by(["pkg-config", *words, "vintsaky"], env=environment)


def test_pkg_config_names_the_version_of_the_header(usr: Path) -> None:
    text = '#include "vintsaky.h"\nVINTSAKY_VERSION\n'
    printed = run(["cc", "-E", "-P", HEADER_FOLDER, "-"], text).stdout
    version = int(printed.split()[-1], 0)
    numbers = f"{version >> 16}.{version >> 8 & 255}.{version & 255}\n"
    assert pkg_config(usr, "--modversion") == numbers


def test_pkg_config_names_no_other_library(usr: Path) -> None:
    assert pkg_config(usr, "--static", "--libs-only-l").split() == ["-lvintsaky"]


def test_program_is_linked_with_what_pkg_config_finds(usr: Path) -> None:
    flags, calls = pkg_config(usr, "--cflags", "--libs").split(), usr / "calls"
    check_compiles(["cc", "-std=c99", *size_flags(), "-o", calls, EACH_CALL, *flags], usr)
    assert said_by([calls], env={**os.environ, "LD_LIBRARY_PATH": f"{usr}/lib"}) == ""
    needed = [name for name in dynamic(calls, "NEEDED") if "vintsaky" in name]
    assert needed == ["libvintsaky.so.1"]
