"""Looks at pages in Firefox, without a window, by the protocol that Firefox has of its own accord
(Marionette: lengths and JSON on a socket of this machine)."""
from __future__ import annotations

import contextlib
import itertools
import json
import os
import socket
from pathlib import Path
from typing import Any, Iterator

from tests.shared.processes import TIMEOUT, process_tree, wait_until

from .browser import driven

SWITCHES = ["--headless", "--no-remote", "--marionette", "--profile"]
# a port that is free, and nothing that asks or tells others
SETTINGS = {
    "marionette.port": 0,
    "remote.active-protocols": 0,
    "app.update.disabledForTesting": True,
    "browser.shell.checkDefaultBrowser": False,
    "datareporting.policy.dataSubmissionEnabled": False,
    "network.captive-portal-service.enabled": False,
    "network.connectivity-service.enabled": False,
}
FOUND = "(document.getElementById('of-the-test') || {textContent: null}).textContent"


class Firefox:
    """A Firefox that runs."""

    def __init__(self, connection: socket.socket) -> None:
        self.connection, self.file = connection, connection.makefile("rb")
        self.numbers = itertools.count(1)
        self.read()  # what it says of itself
        self.ask("WebDriver:NewSession")

    def read(self) -> Any:
        """Returns the next message."""
        length = bytearray()
        while (byte := self.file.read(1)) not in (b":", b""):
            length += byte
        return json.loads(self.file.read(int(length)))

    def ask(self, command: str, **parameters: Any) -> Any:
        """Returns what a command returns."""
        number = next(self.numbers)
        text = json.dumps([0, number, command, parameters]).encode()
        self.connection.sendall(b"%d:%b" % (len(text), text))
        _, answered, error, result = self.read()
        assert (answered, error) == (number, None)
        return result

    def value(self, expression: str) -> Any:
        """Returns the value of an expression in the page that is open."""
        script = f"return {expression}"
        return self.ask("WebDriver:ExecuteScript", script=script, args=[])["value"]

    def open(self, place: Path) -> None:
        """Opens the page of a file."""
        self.open_address(f"file://{place}")

    def open_address(self, address: str) -> None:
        """Opens a page."""
        self.ask("WebDriver:Navigate", url=address)

    def answer(self, place: Path, script: str) -> Any:
        """Returns what a function of this text returns, as browser.answer does."""
        self.open(driven(place, script))
        assert wait_until(lambda: self.value(FOUND) is not None), "the page had no answer"
        return json.loads(self.value(FOUND))


@contextlib.contextmanager
def firefox(folder: Path) -> Iterator[Firefox]:
    """Starts a Firefox with a profile of its own in this folder, and ends it."""
    profile = folder / "firefox"
    profile.mkdir()
    lines = [f'user_pref("{name}", {json.dumps(value)});\n' for name, value in SETTINGS.items()]
    (profile / "user.js").write_text("".join(lines))
    environment = {**os.environ, "HOME": str(folder)}
    place = profile / "MarionetteActivePort"
    with process_tree(["firefox-esr", *SWITCHES, profile], stderr=-3, env=environment):
        assert wait_until(lambda: place.exists() and place.read_text() != "")
        address = ("127.0.0.1", int(place.read_text()))
        with socket.create_connection(address, TIMEOUT) as connection:
            yield Firefox(connection)
