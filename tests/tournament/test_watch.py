"""tournament watch, which serves the page; and play --page, which writes it."""
from __future__ import annotations

import gzip
import http.client
import json
import re
import signal
from typing import Any, Dict, Iterator, List, NamedTuple, Optional

import pytest

from .html_page import Page, read
from .inside import module
from .runner import TWO, Runner, engines
from .written import ENDED, WON, write_pairs, write_result, write_results


class Got(NamedTuple):
    """What a server answered."""

    status: int
    headers: Dict[str, str]
    body: bytes

    def page(self) -> Page:
        """Returns the page that it is."""
        return Page(gzip.decompress(self.body).decode())


class Client:
    """Asks a server that serves a tournament."""

    def __init__(self, port: int) -> None:
        self.port = port

    def get(self, path: str, host: Optional[str] = None, command: str = "GET") -> Got:
        """Returns what is answered."""
        connection = http.client.HTTPConnection("127.0.0.1", self.port, timeout=100)
        connection.putrequest(command, path, skip_host=True)
        connection.putheader("Host", f"127.0.0.1:{self.port}" if host is None else host)
        connection.endheaders()
        answer = connection.getresponse()
        found = Got(answer.status, dict(answer.getheaders()), answer.read())
        connection.close()
        return found


@pytest.fixture
def client(runner: Runner) -> Iterator[Client]:
    """Returns what asks a server of the tournament `all`, of two pairs that are half played."""
    write_pairs(runner.folder / "all", [WON, WON._replace(second=None)])
    (runner.folder / "all/logs").mkdir()
    (runner.folder / "all/logs/1_a_b").write_text("<b>\n")
    (runner.folder / "all/logs/3_a_b").write_text("of no game of the plan\n")
    process = runner.start("tournament", "watch", "all")
    assert process.stdout and process.stderr
    found = re.fullmatch(r"http://127\.0\.0\.1:([0-9]+)/\n", process.stdout.readline())
    assert found and f"ssh -L {found[1]}:127.0.0.1:{found[1]}" in process.stderr.readline()
    yield Client(int(found[1]))
    process.send_signal(signal.SIGINT)
    assert process.wait(100) == -signal.SIGINT


def test_page_is_served(client: Client) -> None:
    got = client.get("/")
    page = got.page()
    assert got.status == 200 and "games3 of 4" in page.texts["state"]
    assert len(page.data["number"]) == 3
    contents = [element.attributes.get("content") or "" for element in page.elements]
    assert [found for each in contents for found in re.findall("connect-src [^;]*", each)] == [
        "connect-src 'self'"
    ]
    assert got.headers["X-Content-Type-Options"] == "nosniff"


def test_new_results_are_served(client: Client, runner: Runner) -> None:
    first = client.get("/stamp").body
    assert client.get("/stamp").body == first
    write_results(runner.folder / "all", {"2_b_a": f"B+R {ENDED}"})
    runner.wait_until(lambda: client.get("/stamp").body != first)
    assert "games4 of 4" in client.get("/page").page().texts["state"]


def test_ranking_is_made_anew_only_for_new_results(
    runner: Runner, monkeypatch: pytest.MonkeyPatch
) -> None:
    folder, server = runner.folder / "all", module("report.page.server")
    write_pairs(folder, [WON, WON._replace(first=None)])
    for name in ("notes", "running/2_a_b"):
        (folder / name).mkdir(parents=True)
    notes = folder / "notes/2_a_b"
    notes.write_text("2_a_b on here\n1 black A1 0.1\n")
    made: List[Any] = []
    document = server.Document

    def counted(*words: Any) -> Any:
        made.append(words)
        return document(*words)

    monkeypatch.setattr(server, "Document", counted)
    monkeypatch.setattr(server, "FRESH", -1.0)  # seconds
    asked = module("report.page.view").Asked(str(folder), module("stats.endings").Rules())
    pages = server.Pages(asked)

    def state() -> str:
        page, stamp = pages.now()
        return f"{stamp}, {len(made)}: {Page(gzip.decompress(page).decode()).texts['state']}"

    found = [state(), state()]
    notes.write_text(f"{notes.read_text()}2 white B1 0.1\n")
    found += [state(), state()]
    write_results(folder, {"2_a_b": f"B+R {ENDED}"})
    found += [state()]
    heads = [text.partition(": ")[0] for text in found]
    assert heads == ["1, 1", "1, 1", "2, 1", "2, 1", "3, 2"]
    assert "2_a_b move 1" in found[1] and "2_a_b move 2" in found[3]
    assert "games3 of 4" in found[3] and "games4 of 4" in found[4]


def test_only_files_of_games_of_the_plan_are_served(client: Client, runner: Runner) -> None:
    got = client.get("/logs/1_a_b")
    assert (got.status, got.body) == (200, b"<b>\n")
    assert got.headers["Content-Type"] == "text/plain; charset=utf-8"
    (runner.folder / "all/games/secret").write_text("x")
    for path in (
        *("/logs/3_a_b", "/games/secret", "/plan", "/logs/..%2fplan", "/logs/../plan"),
        *("/logs/%2e%2e/plan", "/games/", "//etc/passwd", "/logs/1_a_b/x"),
    ):
        assert client.get(path).status == 404, path
    assert client.get("/", command="POST").status == 501


def test_other_names_of_the_machine_are_refused(client: Client) -> None:
    for host in ("localhost", "localhost:1234", "127.0.0.1:99"):
        assert client.get("/stamp", host).status == 200, host
    for host in ("", "evil.example", "evil.example:80", "localhost.evil.example", "127.0.0.1.x"):
        got = client.get("/logs/1_a_b", host)
        assert (got.status, got.body) == (403, b"this is no name of this machine\n"), host


def test_port_that_is_taken(client: Client, runner: Runner) -> None:
    done = runner.tournament("watch", "all", "--port", client.port)
    reason = "Address already in use; choose another one by --port"
    line = f"tournament: port {client.port} can't be opened: {reason}\n"
    assert done == (2, "", line)


# ---- play --page


def test_page_is_written_at_the_end(runner: Runner) -> None:
    words = [*TWO, "--seeds", "2", "--page", "page.html", "--", "--size", "2"]
    done = runner.tournament("play", "all", *words)
    assert (done.status, done.errors) == (0, "")
    page = read(runner.folder / "page.html")
    assert "games4 of 4" in page.texts["state"]
    assert sorted(place.name for place in runner.folder.iterdir()) == ["all", "page.html"]
    assert runner.is_idle()


def test_page_is_written_while_games_are_played(runner: Runner) -> None:
    runner.script("waits", "until [ -e go ]; do sleep 0.1; done; exec gtp_engine")
    runner.tournament("plan", "all", *engines(one="./waits", two="gtp_engine"), "--seeds", "1")
    runner.pass_trials("all")
    process = runner.start("tournament", "play", "all", "--page", "page.html")
    place = runner.folder / "page.html"
    runner.wait_until(place.exists)
    state = read(place).texts["state"]
    assert "games0 of 2" in state and "in play" in state and "not running" not in state
    runner.wait_for("game 1_one_two")
    process.terminate()
    assert runner.finish(process).status == 143
    assert runner.is_idle()
    assert [each.name for each in runner.folder.glob("page.html*")] == ["page.html"]
    assert json.dumps(read(place).data["number"]) == "[]"


def test_page_of_a_run_that_was_stopped_says_so(runner: Runner) -> None:
    runner.script("waits", "until [ -e go ]; do sleep 0.1; done; exec gtp_engine")
    runner.tournament("plan", "all", *engines(one="./waits", two="gtp_engine"), "--seeds", "1")
    runner.pass_trials("all")
    (runner.folder / "all/games").mkdir(exist_ok=True)
    write_result(runner.folder / "all", "1_two_one", "B+R moves 1 restarts 0 0", "D4")
    process = runner.start("tournament", "play", "all", "--page", "page.html")
    runner.wait_for("game 1_one_two")
    process.terminate()
    assert runner.finish(process).status == 143
    state = read(runner.folder / "page.html").texts["state"]
    # though there was a result a moment ago
    assert "games1 of 2" in state and "not running" in state


@pytest.mark.parametrize(
    "words, message",
    [
        (["--page", "none/page.html"], "--page needs a FILE in a directory that is there, and not"),
        (["--page", "x", "--task", "1/2"], "--page shows all games, and --task plays some of them"),
    ],
)
def test_mistake(words: "list[str]", message: str, runner: Runner) -> None:
    write_pairs(runner.folder / "all", [WON])
    done = runner.tournament("play", "all", *words)
    assert (done.status, done.output) == (2, "")
    assert done.errors.startswith(f"tournament: {message}")
