"""Starts a program, and ends all processes below this one.

It imports little, since each start of an engine waits for it.
"""
from __future__ import annotations

import os

TYPE_CHECKING = False  # as of typing, whose import takes longer than all of this
if TYPE_CHECKING:
    import signal as signal
    from collections.abc import Callable, Iterable
    from typing import Any, NoReturn
else:
    try:
        import _signal as signal  # the part in C: the rest takes a third as long as Python's start
    except ImportError:
        import signal

ENDING = (signal.SIGTERM, signal.SIGINT, signal.SIGHUP)
DEFAULT_SIGNALS = (*ENDING, signal.SIGPIPE, signal.SIGXFSZ)  # which no engine inherits as ignored
NOT_EXECUTABLE, NOT_FOUND = 126, 127  # the statuses of a program that can't be started
# what prctl sets: PR_SET_PDEATHSIG, PR_SET_DUMPABLE, PR_SET_NAME, PR_SET_CHILD_SUBREAPER
PARENT_DEATH_SIGNAL, DUMPABLE, NAME, CHILD_SUBREAPER = 1, 4, 15, 36
NAME_LENGTH = 15  # bytes


def c_function(name: str) -> Callable[..., Any]:
    """Returns a function of the C library that takes integers or bytes, and returns an int.

    The part of ctypes in C, where it can be imported alone, saves a third of Python's start.
    """
    try:
        import _ctypes

        part: Any = _ctypes  # whose types nobody declares
        call, address = part.call_function, part.dlsym(part.dlopen(None, 0), name)
        return lambda *values: call(address, values)
    except (ImportError, AttributeError):
        import ctypes

        function: Callable[..., Any] = getattr(ctypes.CDLL(None), name)
        return function


prctl = c_function("prctl")


def adopt_orphans() -> None:
    """Makes this process the parent of each descendant that loses its own."""
    if prctl(CHILD_SUBREAPER, 1, 0, 0, 0):
        raise OSError(0, "this system lets no process adopt others")


def end_with_parent(parent: int, number: int) -> bool:
    """Has this signal sent to this process at its parent's end. Returns whether that has ended."""
    prctl(PARENT_DEATH_SIGNAL, int(number), 0, 0, 0)
    return os.getppid() != parent


def set_process_name(name: str) -> None:
    """Sets the name of this process that `ps -e` and `top` show."""
    prctl(NAME, os.fsencode(name)[:NAME_LENGTH], 0, 0, 0)


def start_program(
    command: list[str],
    folder: str,
    streams: Iterable[int],
    default_signals: Iterable[int] = DEFAULT_SIGNALS,
) -> tuple[int, str]:
    """Starts a program in a folder, with these three streams.

    It ends with this process, has no signal blocked, and a process group of its own, so that
    signals to its group don't reach this process. Returns its process, and why it can't be
    started; an empty text where it was.
    """
    own, (failure, failure_end) = os.getpid(), os.pipe()
    process = os.fork()
    if not process:
        become(command, folder, streams, default_signals, own, failure_end)
    os.close(failure_end)
    reason = os.read(failure, 4096)  # nothing, once the program has replaced the fork
    os.close(failure)
    return process, os.fsdecode(reason)


def become(
    command: list[str],
    folder: str,
    streams: Iterable[int],
    default_signals: Iterable[int],
    parent: int,
    failure_end: int,
) -> NoReturn:
    """Replaces this process, a new fork, by a program. A failure is written into a pipe."""
    place, status = folder, NOT_EXECUTABLE
    try:
        for number in default_signals:
            signal.signal(number, signal.SIG_DFL)
        signal.pthread_sigmask(signal.SIG_SETMASK, ())
        os.setpgid(0, 0)
        if end_with_parent(parent, signal.SIGKILL):
            os._exit(NOT_EXECUTABLE)
        for number, stream in enumerate(streams):
            if stream != number:
                os.dup2(stream, number)
        os.chdir(place)
        place = command[0]
        os.execvp(place, command)
    except OSError as error:
        os.write(failure_end, os.fsencode(f"{place}: {error.strerror}"))
        status = NOT_FOUND if isinstance(error, FileNotFoundError) else NOT_EXECUTABLE
    finally:
        os._exit(status)


def children_of(process: int) -> list[int]:
    """Returns the children of all threads of a process; none where it has ended."""
    children = []
    try:
        for thread in os.listdir(f"/proc/{process}/task"):
            with open(f"/proc/{process}/task/{thread}/children") as file:
                children += [int(child) for child in file.read().split()]
    except OSError:
        pass
    return children


def end_descendants() -> None:
    """Kills all children, and theirs, which this process adopts then.

    A child that it may not kill, such as `sudo`, is left: that ends once nobody writes to it.
    """
    spared: set[int] = set()
    try:
        while True:
            children = children_of(os.getpid())
            for child in children:
                try:
                    os.kill(child, signal.SIGKILL)
                except PermissionError:
                    spared.add(child)
            if spared and spared.issuperset(children):
                return
            os.waitpid(-1, 0)
    except ChildProcessError:
        pass


def shell_status(status: int) -> int:
    """Returns the status that a shell gives for this one of waitpid."""
    return 128 + os.WTERMSIG(status) if os.WIFSIGNALED(status) else os.WEXITSTATUS(status)
