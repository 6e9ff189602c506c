"""Forms that the stripper refuses: ghosts that are left, and what Rust takes in another sense.

The kit's page FROM_RUST.md lists the forms that both take and that mean two things. What a form
belongs to can't always be seen in the text. Then more is refused than differs, and the source has
to say the same in another way.
"""
from __future__ import annotations

import re
from typing import Callable, Iterable, Iterator, NamedTuple

from . import shapes
from .places import Plain
from .refused import Refused
from .scanner import Part


class Form(NamedTuple):
    """A form that is refused: its name, how it is known, and why."""

    name: str
    known_by: str
    why: str


UNKNOWN = [
    Form("ghost", r"\b(?:ghost|requires|ensures|forall|invariant)\b|[«»]", "a ghost is left over"),
    Form("sign", r"[^\x00-\x7f]", "a sign of a clause is left over"),
    Form("model", r"\bModel\b", "a model is left over"),
    Form(
        "proved claim",
        r"\bprove(?:_eq|_ne)?\s*!",
        "a claim that the check proves is no macro of Rust",
    ),
    Form("final function", r"\bfinal\s+(?:pub\b[^{;]*)?fn\b", "Rust has no final function"),
    Form(
        "drop by value", r"\bfn\s+drop\s*\(\s*(?:mut\s+)?self\b", "drop takes `&mut self` in Rust"
    ),
    Form("endless loop", r"\bforever\s*\(", "Rust has no such call"),
    Form("macro", r"\bmacro_rules\b|\bderive\s*\(\s*\)", "a macro's code isn't looked at"),
    Form(
        "code from elsewhere",
        r"\binclude\s*!|#\s*!?\[\s*path\b",
        "a file that no `mod` names isn't looked at",
    ),
    Form(
        "attribute of the check",
        r"#!?\[\s*(?:tactic|cycle)\b",
        "an attribute of the check is left over",
    ),
    Form("right to end the program", r"\bAbort\b", "a program must not end itself"),
]
SILENT = [
    Form("text of code", r"\bstringify\b", "a long text may be broken into lines in Rust"),
    Form(
        "error of write!",
        r"\bwrite_fmt\b|\bwrite(?:ln)?\s*!\s*[\[{]|\bwrite(?:ln)?\s+as\b",
        "it isn't seen what becomes of the error",
    ),
    Form(
        "clones of a map",
        r"::\s*clone\b(?!\s*(?:\(|::))",
        "the items are clones in Rust, and results in the kit",
    ),
    Form("anyhow", r"\banyhow\b", "an error of anyhow is printed in another way in the kit"),
    Form(
        "thread",
        r"\bthread\s*::\s*(?!yield_now\b)|\b(?:JoinHandle|JoinInner|ScopedJoinHandle)\b",
        "the kit never drops what a thread returns",
    ),
    Form("channel", r"\btry_(?:send|recv)\b", "what is in a channel's other end counts in the kit"),
    Form("range with no end", r"\bRangeFrom\b", "it overflows in Rust, and ends in the kit"),
    Form(
        "bound Index",
        r":\s*[^,;{}()]*\bIndex(?:Mut)?\s*<",
        "another impl is picked where an Output may have no size",
    ),
    Form(
        "iterator of one",
        r"\biter\s*::\s*(?!zip\b)|(?<!fn )\binto_iter\b",
        "the kit has one type for three of Rust's",
    ),
    Form(
        "impl on an iterator of one",
        r"\bimpl\b[^{;]*\b(?:Once|Empty|IntoIter)\b|\boption\s*::\s*(?:\{[^;]*)?\bIntoIter\b",
        "the kit has one type for three of Rust's",
    ),
    Form(
        "error of try_from",
        r"\b(?:Infallible|TryFromIntError)\b",
        "try_from has an error of another type in the kit",
    ),
    Form(
        "size of a value",
        r"\bsize_of_val\b|\balign_of_val\b|\bfor_value\b",
        "a closure that is a function pointer has another size",
    ),
    Form("import by another name", r"\bextern\s+crate\b", "it isn't seen what a name means"),
    Form("raw name", r"\br#\s*[A-Za-z_]", "it is another name without its mark"),
]


class Shape(NamedTuple):
    """A form that no expression finds: its name, what finds its places, and why it is refused."""

    name: str
    places: Callable[[str], Iterator[int]]
    why: str


SHAPES = [
    Shape(
        "range with no end", shapes.ranges_with_no_end, "it overflows in Rust, and ends in the kit"
    ),
    Shape(
        "error of write!",
        shapes.errors_of_write,
        "the error of write! to a String is of another type in the kit",
    ),
    Shape(
        "clones of a map",
        shapes.clones_of_a_map,
        "the items are clones in Rust, and results in the kit",
    ),
    Shape(
        "impl on all types", shapes.impls_on_all_types, "a type may have the bound in the kit alone"
    ),
    Shape(
        "type of Self in a type",
        shapes.types_of_self,
        "another impl is picked where Self may have no size",
    ),
    Shape(
        "array in a variant",
        shapes.arrays_in_variants,
        "elements may be dropped in another order where it doesn't match",
    ),
    Shape(
        "rest of an element",
        shapes.rests_of_elements,
        "the kit doesn't read the element where all fields are written",
    ),
    Shape(
        "size of a value",
        shapes.sizes_of_parameters,
        "a closure that is a function pointer has another size",
    ),
    Shape("import by another name", shapes.renames, "it isn't seen what a name means"),
]
METHOD_OF_STD = "a trait has a method that a trait or a type of std has"


def refuse_what_differs(parts: Iterable[Part], path: str) -> None:
    """Refuses a source without its ghosts that has a form which Rust takes in another sense."""
    code = Plain(parts)
    for form in SILENT:
        if found := re.search(form.known_by, code.text):
            raise Refused(form.name, form.why, code.line(found.start()))
    for shape in SHAPES:
        for at in shape.places(code.text):
            raise Refused(shape.name, shape.why, code.line(at))
    for at in shapes.methods_of_std(code.text, path):
        raise Refused("method of std", METHOD_OF_STD, code.line(at))


def refuse_what_is_unknown(code: str, is_test: bool) -> None:
    """Refuses code in which something of the kit is left, without comments and texts."""
    for form in UNKNOWN:
        found = re.search(form.known_by, code)
        if found and not (is_test and form.name == "right to end the program"):
            line = code[code.rfind("\n", 0, found.start()) + 1 :].split("\n")[0].strip()
            raise Refused(form.name, f"{form.why}: {line}")
