"""What the pages lead to, and what they name, is there, and no page is longer than its limit."""
from __future__ import annotations

import re
from functools import lru_cache

import pytest

from tests.shared import pages
from tests.shared.processes import TOP

FEWEST_PAGES = 20  # of the repository
PAGES = pages.page_paths()
NO_FILE = re.compile(r"^cargo/workspace/|NAME|CRATE")  # made by cargo/strip, or any file
NAMES_LOST_PAGES = "tests/build/test_release_pages.py"

# The words that a page may have. A longer page loses a section; a limit rises in a commit of its
# own, which names the task that failed without it.
LIMITS = {
    "CHANGELOG.md": 650,
    "README.md": 970,
    "bench/README.md": 600,
    "cargo/README.md": 450,
    "crates/gtp_check_judge/CALLING.md": 250,
    "crates/gtp_match/CALLING.md": 500,
    "crates/gtp_process/CALLING.md": 470,
    "crates/gtp_session/CALLING.md": 450,
    "docs/DECISIONS.md": 1450,
    "docs/check.md": 1400,
    "docs/clocks.md": 600,
    "docs/controller.md": 1800,
    "docs/engine.md": 800,
    "docs/extending.md": 1600,
    "docs/glossary.md": 450,
    "docs/headline.md": 1500,
    "docs/interop.md": 700,
    "docs/learning.md": 600,
    "docs/library.md": 1200,
    "docs/map.md": 1100,
    "docs/matches.md": 1250,
    "docs/promises.md": 2000,
    "docs/protocol.md": 1750,
    "docs/rules.md": 1350,
    "docs/search.md": 800,
    "docs/server.md": 350,
    "docs/tournaments.md": 1800,
    "docs/troubleshooting.md": 1800,
    "interop/README.md": 300,
    "packaging/README.md": 550,
    "packaging/README.release.md": 350,
    "packaging/README.source.md": 220,
    "tests/README.md": 800,
    "tests/engines/wrong/README.md": 260,
}

each_page = pytest.mark.parametrize("page", PAGES)


@lru_cache(maxsize=None)
def top_directories() -> str:
    """Returns a pattern of the directories at the top of the repository."""
    return "|".join(
        sorted({re.escape(path.split("/")[0]) for path in pages.files() if "/" in path})
    )


@each_page
def test_links_lead_to_files_and_headings(page: str) -> None:
    assert pages.lost_links(TOP / page) == []


@each_page
def test_files_that_a_page_names_in_code_are_there(page: str) -> None:
    path = rf"(?<![\w./-])(?:\./)?((?:{top_directories()})/[\w./-]*\w\.\w+)(?![\w/*])"
    spans = pages.spans_of((TOP / page).read_text())
    named = {name for span in spans for name in re.findall(path, span) if not NO_FILE.search(name)}
    assert [name for name in sorted(named) if not (TOP / name).exists()] == []


def test_there_are_pages() -> None:
    assert len(PAGES) >= FEWEST_PAGES


@each_page
def test_page_keeps_its_limit(page: str) -> None:
    assert len((TOP / page).read_text().split()) <= LIMITS[page]


def test_pages_that_other_files_name_are_there() -> None:
    others = [path for path in pages.files() if path not in PAGES and path != NAMES_LOST_PAGES]
    assert [lost for path in others for lost in lost_pages(path)] == []


def lost_pages(path: str) -> list[str]:
    """Returns the pages that a file names and that aren't there, with an anchor or without.

    It names them by their path from the top, or by their name where it is a manual page.
    """
    text = (TOP / path).read_text(errors="replace")
    page = rf"(?<![\w./-])((?:{top_directories()})/[\w./-]*\.md(?:#[\w-]+)?)"
    named = set(re.findall(page, text))
    in_manual = re.findall(r"^\.(?:It )?Pa ([\w-]+\.md)\b", text, re.MULTILINE)
    named.update(f"docs/{name}" for name in in_manual)
    return [f"{path}: {it}" for it in sorted(named) if not pages.leads(TOP / "README.md", it)]
