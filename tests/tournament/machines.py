"""Machines that GNU Parallel reaches: each is a directory, and a script stands in for ssh."""
from __future__ import annotations

import shutil

import pytest

from .runner import Runner

# On each machine its own bin comes first in PATH, if there is one. The machine gone can't be
# reached, nor can silent, of which ssh says nothing, and on bare there is no engine.
SSH = """\
echo "$*" >> {folder}/reached
while [[ $1 == -* ]]; do [[ $1 != -[lpo] ]] || shift; shift; done
[ "$1" != silent ] || exit 255
[ "$1" != gone ] || { echo "ssh: no route to gone" >&2; exit 255; }
cd "{folder}/$1" || exit 255
[ "$1" != bare ] || PATH=$PWD/bin:/usr/bin:/bin
shift
[ "$1" != -- ] || shift
exec {words}bash -c "$*"
"""


def use_parallel(runner: Runner, *words: str) -> None:
    """Lets GNU Parallel reach machines, where these words stand before each command.

    Skips the test if GNU Parallel is missing.
    """
    (runner.folder / "tools").mkdir()
    text = SSH.replace("{folder}", str(runner.folder))
    runner.script("tools/ssh", text.replace("{words}", "".join(f"{word} " for word in words)))
    # without SHELL it starts nothing, and ends with status 0
    runner.environment.update(
        PATH=f"{runner.folder}/tools:{runner.environment['PATH']}",
        SHELL="/bin/bash",
        HOME=str(runner.folder),
    )
    if not shutil.which("parallel") or "GNU" not in runner.run("parallel", "--version").output:
        pytest.skip("there is no GNU Parallel")
