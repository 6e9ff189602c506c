"""How a command is run, and how its errors are reported."""
from __future__ import annotations

import contextlib
import signal
from typing import Callable, Sequence

from .. import output
from ..output import STDERR, Mistake


def run(name: str, main_of: Callable[[Sequence[str]], int], arguments: Sequence[str]) -> int:
    """Runs the main function of a command, and returns its status. Errors are reported."""
    output.hold_streams()
    output.set_program(name)
    # whoever started it may ignore the ends of processes
    signal.signal(signal.SIGCHLD, signal.SIG_DFL)
    try:
        return main_of(arguments)
    except Mistake as mistake:
        with contextlib.suppress(OSError):
            output.write(STDERR, mistake.printed)
        output.report(mistake.text)
        return 2
    except BrokenPipeError:
        return 128 + signal.SIGPIPE
    except OSError as error:
        output.report(output.description(error))
        return 1
