"""Runs commands, and ends all that a command has started together with it."""
from __future__ import annotations

import contextlib
import os
import signal
import subprocess
import threading
import time
from pathlib import Path
from typing import Any, Callable, Iterator, Sequence, Union

TOP = Path(__file__).resolve().parents[2]
# Seconds after which a command is taken to hang. Nothing that works takes so long, on however slow
# a machine.
TIMEOUT = 120

Command = Sequence[Any]  # texts, bytes, paths and numbers
Process = subprocess.Popen[Any]


@contextlib.contextmanager
def process_tree(command: Command, timeout: float = TIMEOUT, **options: Any) -> Iterator[Process]:
    """Starts a process, and kills it and all that it has started at the end, or when it hangs."""
    words: Sequence[Any] = [it if isinstance(it, bytes) else str(it) for it in command]
    with subprocess.Popen(words, start_new_session=True, **options) as process:
        timer = threading.Timer(timeout, kill_tree, [process.pid])
        timer.start()
        try:
            yield process
        finally:
            timer.cancel()
            kill_tree(process.pid)


def kill_tree(group: int) -> None:
    """Kills what is left of a group of processes."""
    with contextlib.suppress(ProcessLookupError):
        os.killpg(group, signal.SIGKILL)


def is_alive(group: int) -> bool:
    """Tells whether a process of this group is left."""
    try:
        os.killpg(group, 0)
    except ProcessLookupError:
        return False
    return True


def wait_until(condition: Callable[[], bool], timeout: float = TIMEOUT) -> bool:
    """Waits until this is so, and tells whether it is, where that may take too long."""
    end = time.monotonic() + timeout
    while not (is_so := condition()) and time.monotonic() < end:
        time.sleep(0.02)
    return is_so


def run(
    command: Command,
    text: Union[str, bytes] = "",
    timeout: float = TIMEOUT,
    **options: Any,
) -> subprocess.CompletedProcess[Any]:
    """Runs a command that reads this text, and returns what it has written, and its status.

    This is subprocess.run, except that what the command has started ends too. What it writes is
    bytes where the text is. The options are those of Popen.
    """
    if isinstance(text, str):
        options = {"encoding": "utf-8", "errors": "backslashreplace", **options}
    pipes = dict.fromkeys(["stdin", "stdout", "stderr"], subprocess.PIPE)
    with process_tree(command, 2 * timeout, **{**pipes, **options}) as process:
        output, errors = process.communicate(text if process.stdin else None, timeout)
    return subprocess.CompletedProcess(command, process.returncode, output, errors)
