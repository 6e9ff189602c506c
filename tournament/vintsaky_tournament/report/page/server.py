"""Serves the page of a tournament to browsers on this machine alone, while a run is going."""
from __future__ import annotations

import gzip
import http.server
import os
import re
import threading
import time
from typing import Mapping, NamedTuple, Sequence
from urllib.parse import unquote

from ...output import Mistake
from ...store import results
from .document import Document
from .view import Asked, View

FRESH = 2.0  # seconds for which a page is taken as it is
LOOPBACK = "127.0.0.1"
# what a browser may call this machine, with any port: ssh -L gives it another one. A page elsewhere
# whose name leads to the loopback is refused by that.
OWN_HOST = re.compile(r"(?:127\.0\.0\.1|localhost)(?::[0-9]{1,5})?")
FILE = re.compile(r"/(games|logs|notes)/([^/]+)")
HTML, PLAIN = "text/html; charset=utf-8", "text/plain; charset=utf-8"
SAFE = {
    "X-Content-Type-Options": "nosniff",
    "Cache-Control": "no-store",
    "Cross-Origin-Resource-Policy": "same-origin",
    "X-Frame-Options": "DENY",
}


class Answer:
    """What is answered."""

    def __init__(self, status: int, body: bytes, kind: str = PLAIN, is_packed: bool = False):
        self.status, self.body, self.kind, self.is_packed = status, body, kind, is_packed


class Seen(NamedTuple):
    """When a file was changed, in nanoseconds, and its bytes; 0 where there is none."""

    changed: int = 0
    size: int = 0


def seen_of(place: str) -> Seen:
    """Returns what is seen of a file."""
    try:
        found = os.stat(place)
    except OSError:
        return Seen()
    return Seen(found.st_mtime_ns, found.st_size)


class Pages:
    """The page of a folder, which is made where it is asked for and something has changed."""

    def __init__(self, asked: Asked) -> None:
        self.asked, self.lock = asked, threading.Lock()
        self.view = View(asked)
        self.document: Document | None = None
        self.looked = 0.0  # when the folder was looked at
        self.results: Sequence[int] = ()  # what was seen there
        self.playing: Sequence[int] = ()
        self.stamp = 0  # how many pages were made
        self.page = b""

    def seen_results(self) -> list[int]:
        """Returns numbers that change where results do, or games begin or end, by the times of
        files alone."""
        names = ("plan", "games", "logs", "running", "scores")
        return [seen_of(f"{self.asked.folder}/{name}").changed for name in names]

    def seen_playing(self) -> list[int]:
        """Returns numbers that change with the games in play."""
        gathered = self.view.gathered
        names = [gathered.name(game) for game in gathered.playing]
        return [seen_of(f"{self.asked.folder}/notes/{name}").size for name in names]

    def update(self) -> bool:
        """Takes what has changed, and returns whether something has. Only results change what is
        made of them."""
        results, playing = self.seen_results(), self.seen_playing()
        if self.document and (results, playing) == (self.results, self.playing):
            return False
        if self.document and results == self.results:
            self.view = self.view.with_games_in_play()
        else:
            self.view = View(self.asked, self.view)
            self.document = Document(self.view, "", True)
        self.results, self.playing = results, self.seen_playing()
        return True

    def now(self) -> tuple[bytes, int]:
        """Returns the page as it is now, packed, and its number. One is made at a time."""
        with self.lock:
            if not self.page or time.monotonic() - self.looked > FRESH:
                if self.update() and self.document:
                    self.page = gzip.compress(self.document.text(self.view).encode(), 4)
                    self.stamp += 1
                self.looked = time.monotonic()
            return self.page, self.stamp

    def answer(self, path: str) -> Answer:
        """Returns what is answered to a path: the page, its number, or a file of a game."""
        if path in ("/", "/page"):
            return Answer(200, self.now()[0], HTML, True)
        if path == "/stamp":
            return Answer(200, str(self.now()[1]).encode())
        found = FILE.fullmatch(path)
        if found and self.view.plan.games().number(found[2]) is not None:
            try:
                return Answer(200, results.bytes_of(f"{self.asked.folder}/{found[1]}/{found[2]}"))
            except FileNotFoundError:
                pass
        return Answer(404, b"there is no such file\n")


class Handler(http.server.BaseHTTPRequestHandler):
    """Answers a browser."""

    protocol_version, server_version, sys_version = "HTTP/1.1", "tournament", ""
    timeout = 60
    server: Server

    def do_GET(self) -> None:
        """Answers what is asked for."""
        if not OWN_HOST.fullmatch(self.headers.get("Host", "")):
            self.send(Answer(403, b"this is no name of this machine\n"))
            return
        try:
            answer = self.server.pages.answer(unquote(self.path.partition("?")[0]))
        except (OSError, Mistake) as error:
            answer = Answer(500, f"{error}\n".encode("utf-8", "backslashreplace"))
        self.send(answer)

    def send(self, answer: Answer) -> None:
        """Writes an answer."""
        headers: Mapping[str, str] = {
            "Content-Type": answer.kind,
            "Content-Length": str(len(answer.body)),
            **({"Content-Encoding": "gzip"} if answer.is_packed else {}),
            **SAFE,
        }
        self.send_response(answer.status)
        for name, value in headers.items():
            self.send_header(name, value)
        self.end_headers()
        self.wfile.write(answer.body)

    def log_message(self, *_: object) -> None:
        """Says nothing."""


class Server(http.server.ThreadingHTTPServer):
    """A server on the loopback alone."""

    daemon_threads, allow_reuse_address = True, True

    def __init__(self, port: int, pages: Pages) -> None:
        self.pages = pages
        super().__init__((LOOPBACK, port), Handler)

    def server_bind(self) -> None:
        """Opens the port. The name of the machine, which others ask for here, isn't needed."""
        self.socket.bind(self.server_address)
        self.server_name, self.server_port = LOOPBACK, self.socket.getsockname()[1]

    def handle_error(self, *_: object) -> None:
        """Says nothing: a browser that has gone away is no error."""
