"""What ./build leaves, before and after `rt ci`, in clones with three small crates.

What a build leaves, whole or killed in the middle, `rt ci` doesn't take for a part of the
repository, and what is in bin/ is still good after `rt ci`.
"""
from __future__ import annotations

import os
import shutil
import time
from concurrent.futures import ThreadPoolExecutor
from pathlib import Path
from subprocess import CompletedProcess
from typing import Dict, Iterator, List, NamedTuple

import pytest

from tests.shared.processes import TOP, run, wait_until

from .clones import (
    Clone,
    Gate,
    kill_below,
    last_line,
    make_clone,
    path_without_kit,
    processes_below,
    proved_by,
)

pytestmark = pytest.mark.xdist_group("build")

ACCEPTED = Gate([], "3 passed, 0 failed", 0)
SOURCE = "crates/small/src/main.rt"


@pytest.fixture(scope="module")
def folder(tmp_path_factory: pytest.TempPathFactory) -> Iterator[Path]:
    """Returns the folder of all clones. What still runs there at the end is killed."""
    folder = tmp_path_factory.mktemp("clones").resolve()
    yield folder
    kill_below(folder)


# ---- builds, each of which begins where the one before it has ended


class Killed(NamedTuple):
    """A clone with a build that was killed while a crate was proved."""

    clone: Clone
    proved: List[str]
    left: List[int]  # processes
    gate: Gate


@pytest.fixture(scope="module")
def killed(folder: Path) -> Killed:
    """Kills a build, and runs `rt ci` in its clone, with what the scripts left in this one."""
    clone, output = make_clone(folder, "one"), folder / "output"
    with clone.proving(output) as build:
        build.kill()
        build.wait()
        wait_until(lambda: not processes_below(folder))
        left = processes_below(folder)
    for name in ("bin", "dist"):
        if (TOP / name).is_dir():
            shutil.copytree(TOP / name, clone.folder / f"left_in_{name}", symlinks=True)
    return Killed(clone, proved_by(output.read_text()), left, clone.gate())


class Built(NamedTuple):
    """A clone, and the result of a build there."""

    clone: Clone
    done: CompletedProcess[str]


@pytest.fixture(scope="module")
def built(killed: Killed, folder: Path) -> Dict[str, Built]:
    """Builds in the same clone, and at the same time in another one."""
    clones = {"after a killed build": killed.clone, "in a new clone": make_clone(folder, "two")}

    def build(clone: Clone) -> Built:
        return Built(clone, clone.run("./build", "small"))

    with ThreadPoolExecutor(len(clones)) as pool:
        return dict(zip(clones, pool.map(build, clones.values())))


class Gated(NamedTuple):
    """A clone after another `rt ci`: the library was built over what the first one left."""

    clone: Clone
    program: str  # the sum of the program before that
    over: CompletedProcess[str]  # the build of the library over what `rt ci` left
    older: CompletedProcess[str]  # the build where that is older than it has to be
    gate: Gate


@pytest.fixture(scope="module")
def gated(built: Dict[str, Built], folder: Path) -> Gated:
    """Builds the library in both ways, and runs `rt ci` again."""
    clone = built["after a killed build"].clone
    times = {"began": time.time() - 3600, "later": time.time() + 3600}
    for name, seconds in times.items():
        (folder / name).touch()
        os.utime(folder / name, (seconds, seconds))
    over, older = (
        clone._replace(cache=folder / f"cache_of_{name}").run(
            "./build", "--gate", folder / name, "library"
        )
        for name in times
    )
    return Gated(clone, clone.sum_of("bin/small"), over, older, clone.gate())


@pytest.mark.kit
def test_killed_build_has_proved_nothing(killed: Killed) -> None:
    assert killed.proved == []


@pytest.mark.kit
def test_no_process_of_a_killed_build_lives_on(killed: Killed) -> None:
    assert killed.left == []


@pytest.mark.kit
def test_gate_accepts_a_clone_after_a_killed_build(killed: Killed) -> None:
    assert killed.gate == ACCEPTED


@pytest.mark.kit
@pytest.mark.parametrize("which", ["after a killed build", "in a new clone"])
def test_program_is_built(which: str, built: Dict[str, Built]) -> None:
    clone, done = built[which]
    assert done.returncode == 0, done.stdout + done.stderr
    program = clone.run("bin/small")
    assert (program.returncode, program.stdout, program.stderr) == (0, "7\n", "")


@pytest.mark.kit
def test_each_crate_is_proved_once_for_two_clones(built: Dict[str, Built]) -> None:
    proved = [crate for _, done in built.values() for crate in proved_by(done.stdout)]
    assert proved == ["small_base", "small"]


@pytest.mark.kit
@pytest.mark.parametrize(
    "way, proved", [("over", ["vintsaky"]), ("older", ["small_base", "vintsaky"])]
)
def test_library_is_built_over_what_the_gate_left_lately(
    way: str, proved: List[str], gated: Gated
) -> None:
    done: CompletedProcess[str] = getattr(gated, way)
    last = "build: bin/libvintsaky.so is there"
    outcome = (done.returncode, proved_by(done.stdout), last_line(done.stdout))
    assert outcome == (0, proved, last), done.stderr


@pytest.mark.kit
def test_gate_accepts_a_clone_with_a_program_and_the_library(gated: Gated) -> None:
    assert gated.gate == ACCEPTED


@pytest.mark.kit
@pytest.mark.parametrize("file", ["crates/small/out/small", "bin/small"])
def test_program_is_the_same_after_the_gate(file: str, gated: Gated) -> None:
    assert gated.clone.sum_of(file) == gated.program


# ---- what is in bin/ is known by how it was made, and of which sources


@pytest.mark.kit
@pytest.mark.parametrize("option", ["--needed", "--is-built"])
def test_nothing_is_to_be_built(option: str, gated: Gated) -> None:
    done = gated.clone.run("./build", option, "small")
    assert (done.returncode, done.stdout + done.stderr) == (0, "")


@pytest.mark.kit
def test_file_is_known_to_be_proved(gated: Gated) -> None:
    assert gated.clone.kind("small") == "proved"


@pytest.mark.kit
def test_date_of_a_source_means_nothing(gated: Gated) -> None:
    (gated.clone.folder / SOURCE).touch()
    assert gated.clone.run("./build", "--proved", "--is-built", "small").returncode == 0


@pytest.mark.kit
@pytest.mark.parametrize("file", ["bin/small", SOURCE])
def test_program_is_not_built_where_a_file_is_another(file: str, gated: Gated) -> None:
    place = gated.clone.folder / file
    before = place.read_bytes()
    place.write_bytes(before + b"// more\n")
    assert gated.clone.run("./build", "--is-built", "small").returncode == 1
    place.write_bytes(before)
    assert gated.clone.run("./build", "--is-built", "small").returncode == 0


@pytest.mark.kit
def test_missing_program_is_not_built(gated: Gated) -> None:
    program = gated.clone.folder / "bin/small"
    program.rename(program.with_name("away"))
    assert gated.clone.run("./build", "--is-built", "small").returncode == 1
    program.with_name("away").rename(program)


@pytest.fixture
def by_cargo(gated: Gated) -> Clone:
    """Returns the clone, in which the program is said to be built by cargo."""
    sources = gated.clone.run("packaging/built", "--sources", "cargo").stdout.strip()
    gated.clone.run("packaging/built", "--note", "cargo", sources, "small")
    return gated.clone


@pytest.mark.kit
def test_what_cargo_built_is_there_and_not_proved(by_cargo: Clone) -> None:
    done = by_cargo.run("./build", "--needed", "small")
    report = "build: in bin/ these are by cargo, so they are tested and not proved: small\n"
    assert (done.returncode, done.stdout + done.stderr) == (0, report)
    done = by_cargo.run("./build", "--proved", "--is-built", "small")
    why = "is missing, or made of other sources, or not proved"
    report = f"build: bin/small {why}: ./build small makes it\n"
    assert (done.returncode, done.stdout + done.stderr) == (1, report)


@pytest.mark.kit
@pytest.mark.parametrize("options", [[], ["--needed", "--proved"]], ids=" ".join)
def test_kit_replaces_what_cargo_built(options: List[str], by_cargo: Clone) -> None:
    assert by_cargo.run("./build", *options, "small").returncode == 0
    assert by_cargo.kind("small") == "proved"


@pytest.mark.kit
def test_nothing_is_proved_without_the_kit(gated: Gated, tmp_path: Path) -> None:
    done = gated.clone.run("./build", "--proved", "small", PATH=path_without_kit(tmp_path))
    report = "build: there is no Rattle kit (rt), without which nothing is proved\n"
    assert (done.returncode, done.stdout + done.stderr) == (1, report)


# ---- what is built again, and what isn't


@pytest.mark.kit
def test_second_build_proves_nothing(gated: Gated) -> None:
    done = gated.clone.run("./build", "small")
    outcome = (done.returncode, proved_by(done.stdout), last_line(done.stdout))
    assert outcome == (0, [], "build: bin/small is there"), done.stderr


@pytest.mark.kit
def test_program_is_linked_from_the_object_file(gated: Gated) -> None:
    kit = Path(run(["rt", "doc"]).stdout).parent
    words = ["--target", "x86_64-unknown-linux-gnu", "--toolchain", kit / "toolchain"]
    archives = [kit / "c/libos_c.a", kit / "c/liblibc_c.a"]
    command = [kit / "bin/rattle-link", *words, "-o", "linked", "bin/built/small.o", *archives]
    assert gated.clone.run(*command).returncode == 0
    assert gated.clone.sum_of("linked") == gated.clone.sum_of("bin/small")


@pytest.mark.kit
def test_build_ends_where_a_source_changes_meanwhile(gated: Gated, folder: Path) -> None:
    clone, base = gated.clone, "crates/small_base/src/lib.rt"
    clone.change(base, "7", "8")
    with clone.proving(folder / "output") as build:
        clone.change(base, "8", "9")
        status = build.wait()
    last = last_line((folder / "output").read_text())
    assert (status, last) == (1, "build: a source was changed meanwhile: run ./build again")
    # and then the program is built with the changed library
    assert clone.run("./build", "small").returncode == 0
    assert clone.run("bin/small").stdout == "9\n"


# ---- words on the command line, and missing programs


@pytest.mark.parametrize("script", ["build", "demo", "test", "release"])
def test_help_is_a_usage_text(script: str, tmp_path: Path) -> None:
    done = make_clone(tmp_path, "clone").run(f"./{script}", "--help")
    assert (done.returncode, done.stdout[:7]) == (0, "usage: ")


@pytest.mark.parametrize("script", ["build", "demo", "test", "release"])
def test_unknown_word_is_a_usage_error(script: str, tmp_path: Path) -> None:
    clone = make_clone(tmp_path, "clone")
    made = clone.folder / "crates/small/out/made"
    made.parent.mkdir()
    made.touch()
    done = clone.run(f"./{script}", "--nothing")
    beginnings = [line.partition(": ")[0] for line in done.stderr.splitlines()[:2]]
    assert (done.returncode, done.stdout, beginnings) == (2, "", [script, "usage"])
    assert made.exists()


@pytest.mark.kit
def test_programs_that_are_missing_are_not_tested(tmp_path: Path) -> None:
    clone, names = make_clone(tmp_path, "clone"), ["twogtp", "gtp_engine", "gtp_check"]
    for name in names:
        (clone.folder / f"crates/{name}/src").mkdir(parents=True)
        (clone.folder / f"crates/{name}/src/main.rt").touch()
    done = clone.run("./test", "programs")
    lines = [line.partition(",")[0] for line in (done.stdout + done.stderr).splitlines()]
    assert (done.returncode, lines) == (1, [f"build: bin/{name} is missing" for name in names])


@pytest.mark.parametrize(
    "reaches_crates, words",
    [
        pytest.param("true", "--cargo --needed", id="by cargo where that reaches its crates"),
        pytest.param("false", "--needed", id="else by the kit"),
    ],
)
def test_demo_builds_what_is_missing(reaches_crates: str, words: str, tmp_path: Path) -> None:
    clone = make_clone(tmp_path, "clone")
    scripts = {"build": 'echo "$*"; false', "cargo/strip": reaches_crates}
    for name, text in scripts.items():
        (clone.folder / name).parent.mkdir(exist_ok=True)
        (clone.folder / name).write_text(f"#!/bin/bash\n{text}\n")
        (clone.folder / name).chmod(0o755)
    done = clone.run("./demo")
    assert (done.returncode, done.stdout + done.stderr) == (1, f"{words} twogtp gtp_engine\n")
