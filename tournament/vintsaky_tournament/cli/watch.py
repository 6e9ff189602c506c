"""The command `tournament watch`: serves the page of a tournament on this machine."""
from __future__ import annotations

import os
from typing import TYPE_CHECKING, Sequence

from .. import output
from ..config.values import number
from ..output import Mistake
from ..report.page.server import Pages, Server
from .page import asked_page

if TYPE_CHECKING:
    from ..config.arguments import Arguments

PORTS = range(8000, 8050)  # of which the first one that is free is taken
MOST_PORT = 65535


def do_watch(arguments: Arguments) -> int:
    """Serves the page of a folder until it is ended."""
    asked = asked_page(arguments)
    wanted = arguments.last("--port", port_of)
    pages = Pages(asked)
    server = server_at([wanted] if wanted else PORTS, pages)
    port = server.server_port
    output.write(output.STDOUT, f"http://127.0.0.1:{port}/\n")
    there = f"ssh -L {port}:127.0.0.1:{port} {os.uname().nodename}"
    output.report(f"Ctrl-C ends it; from another machine: {there}")
    server.serve_forever()
    return 0


def port_of(name: str, value: str) -> int:
    """Returns the port that an option names."""
    port = number(name, value)
    if port > MOST_PORT:
        raise Mistake(f"{name} needs a port up to {MOST_PORT}, such as {name} {PORTS[0]}")
    return port


def server_at(ports: Sequence[int], pages: Pages) -> Server:
    """Returns a server at the first of these ports that can be opened."""
    for port in ports:
        try:
            return Server(port, pages)
        except OSError as error:
            reason = error.strerror
    where = f"port {ports[0]}" if len(ports) == 1 else f"no port from {ports[0]} to {ports[-1]}"
    can = "can't" if len(ports) == 1 else "can"
    raise Mistake(f"{where} {can} be opened: {reason}; choose another one by --port")
