"""Reads the page of a tournament, as text alone."""
from __future__ import annotations

import base64
import json
import zlib
from html.parser import HTMLParser
from pathlib import Path
from typing import Any, Dict, List, NamedTuple, Optional, Tuple

ENDLESS = {"br", "hr", "input", "link", "meta"}
IN_CELLS = {"td", "th"}


class Element(NamedTuple):
    """An element that was begun, with its attributes."""

    name: str
    attributes: Dict[str, Optional[str]]


class Page(HTMLParser):
    """What a page has: all elements, the rows of each section, texts, scripts and data."""

    def __init__(self, text: str) -> None:
        super().__init__(convert_charrefs=True)
        self.elements: List[Element] = []
        self.open: List[Element] = []
        self.rows: Dict[str, List[List[str]]] = {}  # of each section
        self.texts: Dict[str, str] = {}
        self.scripts: List[Tuple[Dict[str, Optional[str]], str]] = []
        self.styles: List[str] = []
        self.section, self.text = "", text
        self.feed(text)
        self.close()

    def handle_starttag(self, tag: str, attrs: List[Tuple[str, Optional[str]]]) -> None:
        element = Element(tag, dict(attrs))
        self.elements.append(element)
        if tag == "section":
            self.section = element.attributes.get("id") or ""
        elif tag == "tr":
            self.rows.setdefault(self.section, []).append([])
        elif tag in IN_CELLS:
            self.rows[self.section][-1].append("")
        elif tag == "script":
            self.scripts.append((element.attributes, ""))
        elif tag == "style":
            self.styles.append("")
        if tag not in ENDLESS:
            self.open.append(element)

    def handle_startendtag(self, tag: str, attrs: List[Tuple[str, Optional[str]]]) -> None:
        self.elements.append(Element(tag, dict(attrs)))

    def handle_endtag(self, tag: str) -> None:
        while self.open and self.open.pop().name != tag:
            pass

    def handle_data(self, data: str) -> None:
        names = [element.name for element in self.open]
        if names[-1:] == ["script"]:
            attributes, before = self.scripts[-1]
            self.scripts[-1] = (attributes, before + data)
        elif names[-1:] == ["style"]:
            self.styles[-1] += data
        else:
            self.texts[self.section] = self.texts.get(self.section, "") + data
            if IN_CELLS & set(names) and "title" not in names:
                self.rows[self.section][-1][-1] += data

    @property
    def data(self) -> Any:
        """Returns the data of the games."""
        (found,) = (text for attributes, text in self.scripts if attributes.get("id") == "data")
        return json.loads(found)

    @property
    def own_scripts(self) -> List[str]:
        """Returns the scripts that a browser runs."""
        return [text for attributes, text in self.scripts if "type" not in attributes]

    def planes(self, number: int = 0) -> bytes:
        """Returns the bytes of a chunk of moves."""
        (packed,) = (text for found, text in self.scripts if found.get("id") == f"moves{number}")
        return zlib.decompress(base64.b64decode(packed), -zlib.MAX_WBITS)


def read(place: Path) -> Page:
    """Returns the page of this file."""
    return Page(place.read_text(encoding="utf-8"))
