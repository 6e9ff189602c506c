#!/usr/bin/env python3
"""A server of one match: two engines connect, and a side that is late loses by a ruling.

It prints the number of its port on the loopback interface. The engine that connects first plays
Black. Each side has SECONDS for each answer, counted from the last command that was sent to it. At
the end it prints the result line of the match, and sends both engines `quit`.

usage: serve_match.py SIZE HALF_KOMI SECONDS
"""
import socket
import sys
import time
from typing import Dict

from vintsaky import BLACK, WHITE, Colour, Match, Next


class Late(Exception):
    """The engine's answer is late."""


class Peer:
    """An engine at the other end of a connection, and the time by which it has to answer."""

    def __init__(self, connection: socket.socket, seconds: float) -> None:
        self.connection, self.seconds, self.due = connection, seconds, 0.0

    def write(self, command: bytes) -> None:
        """Sends a command. Its answer is due from now on."""
        self.due = time.monotonic() + self.seconds
        self.connection.sendall(command)

    def read(self) -> bytes:
        """Returns what the engine writes next. Errors: Late, and EOFError if it has closed."""
        left = self.due - time.monotonic()
        if left <= 0:
            raise Late
        self.connection.settimeout(left)
        try:
            written = self.connection.recv(4096)
        except socket.timeout:
            raise Late from None
        if not written:
            raise EOFError
        return written

    def end(self) -> None:
        """Sends `quit`, if possible, and closes."""
        with self.connection:
            try:
                self.connection.sendall(b"quit\n")
            except OSError:
                pass


def take_turn(match: Match, kind: Next, side: Colour, peer: Peer) -> None:
    """Does what is next. An engine that has connected runs already, so it isn't started."""
    if kind is Next.START:
        match.started(side)
    elif kind is Next.SEND:
        peer.write(match.send(side))
    else:
        match.hear(side, peer.read())


def play(match: Match, peers: Dict[Colour, Peer]) -> str:
    """Plays the match. Returns its result line."""
    while (action := match.next()).side is not None:
        try:
            take_turn(match, action.kind, action.side, peers[action.side])
        except Late:
            match.adjudicate(action.side)
        except (OSError, EOFError):
            match.lost(action.side)
    return match.result()


if __name__ == "__main__":
    try:
        size, half_komi, limit = int(sys.argv[1]), int(sys.argv[2]), float(sys.argv[3])
        held = Match(size, half_komi / 2, max_moves=1000)
    except (IndexError, ValueError, OverflowError) as problem:
        sys.exit(f"serve_match: {problem}; usage: serve_match.py SIZE HALF_KOMI SECONDS")
    with socket.create_server(("127.0.0.1", 0)) as server:
        print(server.getsockname()[1], flush=True)
        both = {side: Peer(server.accept()[0], limit) for side in (BLACK, WHITE)}
    print(play(held, both))
    for each in both.values():
        each.end()
