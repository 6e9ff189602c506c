"""What stops ./release: then it ends with status 1, says why, and leaves nothing in dist/."""
from __future__ import annotations

import contextlib
import os
import shutil
import signal
import subprocess
from pathlib import Path
from subprocess import CompletedProcess
from typing import Iterator

import pytest

from tests.shared.processes import process_tree, run, wait_until

from .releases import (
    LONG,
    RELEASE_MARKS,
    commit,
    copied,
    missing_for_a_release,
    object_file,
    release,
)

pytestmark = RELEASE_MARKS

# Makes a release on a disk of this size, and prints what it leaves. Status 77: there is no disk.
ON_DISK = """\
mount -t tmpfs -o size={} none dist || exit 77
./release
status=$?
ls -A dist
exit "$status"
"""


@pytest.fixture(scope="module")
def copy(tmp_path_factory: pytest.TempPathFactory) -> Path:
    """Returns a copy of the repository."""
    if missing := missing_for_a_release():
        pytest.skip(missing)
    return copied(tmp_path_factory.mktemp("stopped").resolve() / "copy")


@contextlib.contextmanager
def changed(file: Path, data: bytes) -> Iterator[None]:
    """Lets a file have these bytes meanwhile."""
    before = file.read_bytes()
    file.write_bytes(data)
    yield
    file.write_bytes(before)


def check_stopped(done: CompletedProcess[str], copy: Path, reason: str) -> None:
    """Fails unless a release has ended for this reason, and left nothing."""
    assert (done.returncode, done.stderr.splitlines()[-1:]) == (1, [f"release: {reason}"])
    assert list((copy / "dist").iterdir()) == []


def test_object_file_of_another_program(copy: Path) -> None:
    # the program is built again, which the ./build of the copy refuses
    with changed(object_file(copy, "twogtp"), object_file(copy, "gtp_engine").read_bytes()):
        check_stopped(release(copy), copy, "twogtp is not built")


def test_shared_library_that_was_not_linked_from_the_archive(copy: Path) -> None:
    shared = copy / "bin/libvintsaky.so.1"
    data = shared.read_bytes()
    with changed(shared, data[:-1] + bytes([data[-1] ^ 1])):
        reason = "bin/libvintsaky.so.1 was not linked from bin/libvintsaky.a"
        check_stopped(release(copy), copy, reason)


def test_page_with_a_link_to_what_a_release_lacks(copy: Path) -> None:
    page = copy / "docs/rules.md"
    with changed(page, page.read_bytes() + b"\n[The map](map.md).\n"):
        commit(copy, "A link")
        done = release(copy)
    commit(copy, "No link")
    assert "packaging/page: docs/rules.md: a release has no docs/map.md\n" in done.stderr
    check_stopped(done, copy, "the pages can't be made")


@pytest.mark.parametrize("size", ["1m", "5m", "8m", "28m"])
def test_full_disk(size: str, copy: Path) -> None:
    if not shutil.which("unshare"):
        pytest.skip("there is no unshare (apt-get install util-linux)")
    (copy / "dist").mkdir(exist_ok=True)
    root = [] if os.geteuid() == 0 else ["--map-root-user"]
    command = ["unshare", "--mount", *root, "bash", "-c", ON_DISK.format(size)]
    done = run(command, cwd=copy, timeout=LONG)
    if done.returncode == 77 or "unshare failed" in done.stderr:
        pytest.skip(f"nothing can be mounted here: {done.stderr.strip()}")
    reports = [line for line in done.stderr.splitlines() if line.startswith("release: ")]
    assert (done.returncode, done.stdout, len(reports)) == (1, "", 1)
    assert "No space left on device" in done.stderr


def test_release_that_is_ended(copy: Path) -> None:
    # once it has begun to write; no other one may begin meanwhile
    notices = copy / "dist/.making/notices"
    unseen = dict.fromkeys(["stdin", "stdout", "stderr"], subprocess.DEVNULL)
    with process_tree(["./release"], LONG, cwd=copy, **unseen) as process:
        assert wait_until(lambda: notices.exists() or process.poll() is not None, LONG)
        os.killpg(process.pid, signal.SIGSTOP)  # however slow this machine is
        other = release(copy)
        process.send_signal(signal.SIGTERM)
        os.killpg(process.pid, signal.SIGCONT)
        status = process.wait(LONG)
    report = "release: another ./release runs in this clone\n"
    assert (other.returncode, other.stderr) == (1, report)
    assert (status, list((copy / "dist").iterdir())) == (143, [])
