"""The files beside the modules: styles, scripts and templates, which become parts of a page."""
from __future__ import annotations

import base64
import hashlib
import json
import os
from functools import lru_cache
from typing import Iterable, Mapping

from .markup import Html, tag

FOLDER = os.path.dirname(os.path.realpath(__file__))
STYLES = ("style.css", "viewer.css")
OF_BOARD = ("elements.js", "rules.js", "board.js", "viewer.js")


@lru_cache(maxsize=None)
def text_of(name: str) -> str:
    """Returns the text of a file."""
    with open(f"{FOLDER}/{name}", encoding="utf-8") as file:
        return file.read()


def style() -> str:
    """Returns the style of all pages."""
    return "".join(map(text_of, STYLES))


def script(names: Iterable[str]) -> str:
    """Returns one script of these files, whose names nobody else sees."""
    return '(() => {\n"use strict";\n' + "\n".join(map(text_of, names)) + "})();\n"


def hash_of(text: str) -> str:
    """Returns the hash by which a browser knows a style or a script."""
    digest = hashlib.sha256(text.encode()).digest()
    return f"'sha256-{base64.b64encode(digest).decode()}'"


def policy(style_text: str, script_text: str, is_served: bool = False) -> Html:
    """Returns the element that lets only this style and this script be used, and forbids the
    network, except to the server of a page that is served."""
    rules = [
        "default-src 'none'",
        f"style-src {hash_of(style_text)}",
        f"script-src {hash_of(script_text)}",
        f"connect-src {chr(39)}self{chr(39)}" if is_served else "connect-src 'none'",
        "base-uri 'none'",
        "form-action 'none'",
    ]
    return tag("meta", http_equiv="Content-Security-Policy", content="; ".join(rules))


def as_data(value: object) -> Html:
    """Returns JSON that ends no element, whatever is in it."""
    text = json.dumps(value, separators=(",", ":"))
    for character in "<>&":
        text = text.replace(character, f"\\u{ord(character):04x}")
    return Html(text)


def filled(template: str, parts: Mapping[str, str]) -> str:
    """Returns a template with its parts. What is put in is never looked at again."""
    pieces = text_of(template).replace("}}", "{{").split("{{")
    return "".join(parts[piece] if at % 2 else piece for at, piece in enumerate(pieces))
