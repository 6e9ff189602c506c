"""Asks a Chromium without a window, by the protocol that its own tools use (DevTools: JSON on two
pipes, each message with a zero byte behind it)."""
from __future__ import annotations

import contextlib
import itertools
import json
import os
from pathlib import Path
from typing import Any, BinaryIO, Iterator, Sequence

from tests.shared.processes import process_tree

from .browser import SWITCHES

READS, WRITES = 3, 4  # the descriptors of which Chromium reads and to which it writes
# a shell gives it these: bash, since others know only descriptors of one digit
STARTED = f'exec "$@" {READS}<&{{0}} {WRITES}>&{{1}}'


class Chromium:
    """A Chromium that runs, with a page."""

    def __init__(self, commands: BinaryIO, answers: BinaryIO) -> None:
        self.commands, self.answers = commands, answers
        self.numbers = itertools.count(1)
        self.session: str | None = None
        target = self.ask("Target.createTarget", url="about:blank")["targetId"]
        attached = self.ask("Target.attachToTarget", targetId=target, flatten=True)
        self.session = attached["sessionId"]
        self.ask("Page.enable")

    def read(self) -> Any:
        """Returns the next message."""
        message = bytearray()
        while (byte := self.answers.read(1)) not in (b"\0", b""):
            message += byte
        return json.loads(message)

    def ask(self, method: str, **parameters: Any) -> Any:
        """Returns what a method returns."""
        number = next(self.numbers)
        asked = {"id": number, "method": method, "params": parameters}
        if self.session:
            asked["sessionId"] = self.session
        self.commands.write(json.dumps(asked).encode() + b"\0")
        self.commands.flush()
        while (answer := self.read()).get("id") != number:
            pass
        assert "error" not in answer, answer
        return answer["result"]

    def open(self, address: str) -> None:
        """Opens a page, and returns when it has begun to come."""
        self.ask("Page.navigate", url=address)

    def value(self, expression: str) -> Any:
        """Returns the value of an expression in the page that is open, or what it promises."""
        options = {"awaitPromise": True, "returnByValue": True}
        found = self.ask("Runtime.evaluate", expression=expression, **options)
        assert "exceptionDetails" not in found, found
        return found["result"].get("value")


@contextlib.contextmanager
def chromium(folder: Path, switches: Sequence[str] = ()) -> Iterator[Chromium]:
    """Starts a Chromium with a profile of its own in this folder, and ends it."""
    words = ["chromium", *SWITCHES, *switches, "--remote-debugging-pipe"]
    words += [f"--user-data-dir={folder / 'chromium'}"]
    (reads, commands), (answers, writes) = os.pipe(), os.pipe()
    shell = ["bash", "-c", STARTED.format(reads, writes), "bash", *words]
    with process_tree(shell, stdout=-3, stderr=-3, pass_fds=[reads, writes]):
        os.close(reads)
        os.close(writes)
        with open(commands, "wb") as sent, open(answers, "rb") as received:
            yield Chromium(sent, received)
