"""packaging/page: what a page may not have that is for a release."""
from __future__ import annotations

from pathlib import Path
from subprocess import CompletedProcess

import pytest

from tests.shared.processes import TOP, run


def write_page(form: str, text: str, folder: Path) -> CompletedProcess[str]:
    """Returns what comes of a page with this text in a form of a release."""
    (folder / "docs").mkdir()
    (folder / "docs/rules.md").write_text(text)
    pages = ["docs/rules.md", "README.md", "docs/values.md"]
    return run([TOP / "packaging/page", form, "1.0", "docs/rules.md", *pages[1:]], cwd=folder)


@pytest.mark.parametrize(
    "text, reason",
    [
        ("[The map](map.md)", "a release has no docs/map.md"),
        ("[place](../library/declare)", "a release has no library/declare"),
        ("[place](../library/rust/README.md)", "a release has no library/rust/README.md"),
        ("<!-- in a clone -->place", "<!-- in a clone --> has no end"),
        ("<!-- in the archive: place", "<!-- in the archive: has no end"),
        ("<!-- in the shop -->place<!-- end -->", "<!-- in the shop --> names another place"),
        (
            "<!-- in the archive and a shop: place -->",
            "<!-- in the archive and a shop: names another place",
        ),
        (
            "[place](values.md)<!-- no link in the shop -->",
            "<!-- no link in the shop --> names another place",
        ),
        ("<!-- place -->", "<!-- place --> is no mark"),
    ],
)
@pytest.mark.parametrize("form", ["archive", "package"])
def test_page_is_refused(form: str, text: str, reason: str, tmp_path: Path) -> None:
    done = write_page(form, f"# Rules\n\nA {text}\n", tmp_path)
    assert (done.returncode, done.stdout) == (1, "")
    assert done.stderr == f"packaging/page: docs/rules.md: {reason}\n"
