"""Looks at pages in Chromium, without a window."""
from __future__ import annotations

import html
import json
import re
from pathlib import Path
from typing import Any

from tests.shared.processes import process_tree

END_OF_SCRIPT = "})();\n</script>"
POLICY = re.compile('<meta http-equiv="Content-Security-Policy"[^>]*>')
FOUND = re.compile('<pre id="of-the-test">(.*?)</pre>', re.DOTALL)
# what a test adds to the script of a page, with what it returns: it is written into the page
DRIVER = """
(async () => {
  const click = element => element.dispatchEvent(new MouseEvent("click", {bubbles: true}));
  const press = key => byId("viewer").dispatchEvent(new KeyboardEvent("keydown", {key}));
  const pause = () => new Promise(done => setTimeout(done, 50));
  const set = (id, value) => {
    byId(id).value = value;
    byId(id).dispatchEvent(new Event("input", {bubbles: true}));
  };
  %s
})().then(
  found => document.body.prepend(make("pre", {id: "of-the-test"}, JSON.stringify(found))),
  error => document.body.prepend(make("pre", {id: "of-the-test"}, JSON.stringify(String(error)))));
"""
SWITCHES = ["--headless=new", "--no-sandbox", "--disable-gpu", "--no-first-run"]
# milliseconds of the page's own clock, for which nothing waits while there is something to do
TIME = "--virtual-time-budget=600000"


def shown(place: Path, fragment: str = "") -> str:
    """Returns the elements of a page, as a browser has them in the end."""
    folder = f"--user-data-dir={place.parent / 'browser'}"
    address = f"file://{place}{fragment}"
    command = ["chromium", *SWITCHES, TIME, folder, "--dump-dom", address]
    with process_tree(command, stdout=-1, stderr=-3, encoding="utf-8") as process:
        return str(process.communicate()[0])


def without_policy(text: str) -> str:
    """Returns a page that lets all scripts run."""
    found, count = POLICY.subn("", text)
    assert count == 1
    return found


def driven(place: Path, script: str, text: str = "") -> Path:
    """Returns a page that a function of this text has become a part of. The page is that in this
    place, or another text of it."""
    text = without_policy(text or place.read_text(encoding="utf-8"))
    assert text.count(END_OF_SCRIPT) == 1
    made = place.with_name(f"driven-{place.name}")
    made.write_text(text.replace(END_OF_SCRIPT, DRIVER % script + END_OF_SCRIPT), "utf-8")
    return made


def answer(place: Path, script: str, fragment: str = "", text: str = "") -> Any:
    """Returns what a function of this text returns, which is a part of the page's own script."""
    found = FOUND.search(shown(driven(place, script, text), fragment))
    assert found, "the page had no answer"
    return json.loads(html.unescape(found[1]))
