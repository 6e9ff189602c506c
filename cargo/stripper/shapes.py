"""Finds forms that Rust takes in another sense and that are in groups, blocks or items.

Each function yields the places of a form. A place is also one where the meaning isn't known.
"""
from __future__ import annotations

import re
from typing import Iterator, Set

from .places import (
    bodies,
    end_of_angles,
    end_of_group,
    parameters,
    split,
    start_of_group,
    type_parameters,
    until,
)

# Words that aren't operands: one begins after them.
NO_OPERAND = set(
    "return in match if while else break let mut ref move as const static for where yield loop"
    " unsafe dyn".split()
)
OPERAND = re.compile(r"(?:(\w+)|[)\]}?])\s*$")
RANGE = re.compile(r"(?<!\.)\.\.(?![.=])")
OF_PATTERN = re.compile(r"\s*(?:=>|\|[^|])")
NO_END = re.compile(r"\s*(?:[),;{\]}|.?]|=|if\b|else\b|as\b|$)")
GET = re.compile(r"\.\s*get(?:_mut)?\s*$")

WRITTEN = re.compile(r"\bwrite(?:ln)?\s*!\s*|(?<!fn )\b(?:write_str|write_char)\b\s*")
HANDLED = re.compile(
    r"\s*\.\s*(?:is_ok\s*\(|is_err\s*\(|map_err\s*\(\s*(?:std::)?fmt::Error::from\s*\))"
)
FMT = re.compile(r"\bfn\s+fmt\s*\([^{};]*->\s*(?:std::)?fmt::Result\s*$")

# What a blanket impl may ask of a type: traits whose impls are the same in both.
BLANKET = {"Read", "Write", "Maker", "?Sized"}
# The traits that a type may have by a derive, or in the kit and not in Rust.
DERIVED = (
    r"\b(?:Clone|Copy|Debug|Default|Display|Eq|Hash|Ord|PartialEq|PartialOrd|Send|Sync|From|Into"
    r"|TryFrom|TryInto|ToString|Error)\b"
)
RESULT = re.compile(r"\b(?:Option|Result)\s*(?:::\s*)?$")
IMPL = re.compile(r"\bimpl\s*(?=<)")
TRAIT = r"\btrait\s+(\w+)[^{;]*\{"
SIZE = re.compile(r"\b(?:size_of|align_of|needs_drop|Layout\s*::\s*(?:new|array))\s*::\s*(?=<)")

# Traits of ours that name a method as std does, by the paths of their sources. No type has both:
# rustc would say that the call is ambiguous.
ALONE = {
    "byte_streams/src/streams.rt": {"Incoming", "Outgoing"},
    "gtp_process/src/starter.rt": {"Process"},
}
METHODS_OF_STD: Set[str] = set(
    """
    read read_exact read_to_end read_to_string read_line write write_all write_str
    write_char write_fmt flush seek by_ref bytes chain take fmt clone clone_from clone_into
    cloned copied eq ne cmp partial_cmp lt le gt ge max min clamp default from into try_from
    try_into as_ref as_mut borrow borrow_mut deref deref_mut drop hash finish to_string
    to_owned as_str as_bytes as_slice as_mut_slice as_ptr as_deref next next_back size_hint
    map filter filter_map flat_map flatten fold collect sum product count last first nth zip
    enumerate rev skip step_by peekable scan all any find position rposition cycle inspect
    partition reduce unzip into_iter iter iter_mut from_iter extend index index_mut add sub
    mul div rem neg not shl shr bitand bitor bitxor add_assign sub_assign mul_assign
    div_assign source description cause provide type_id call call_mut call_once len is_empty
    get get_mut push pop insert remove append truncate resize clear contains contains_key
    starts_with ends_with split split_at swap sort sort_by reverse join concat repeat trim
    parse chars lines is_some is_none is_ok is_err ok err unwrap expect unwrap_or
    unwrap_or_default map_err and_then or_else replace lock send recv try_send try_recv wait
    kill spawn id close abs pow wrapping_add checked_add saturating_add choose_iter from_str
    to_vec to_bits is_positive start_bound end_bound chunks windows copy_from_slice fill
    capacity reserve drain retain
    """.split()
)


def ranges_with_no_end(code: str) -> Iterator[int]:
    """Yields where a range has no end, and is no whole index, argument of `get` or pattern."""
    for found in RANGE.finditer(code):
        before = OPERAND.search(code, max(0, found.start() - 80), found.start())
        has_start = before and before.group(1) not in NO_OPERAND
        if (
            not has_start
            or not NO_END.match(code, found.end())
            or OF_PATTERN.match(code, found.end())
        ):
            continue
        begin = start_of_group(code, found.start())
        start = code[begin + 1 : found.start()]
        end = end_of_group(code, begin) if begin >= 0 else 0
        is_rest = code[found.end() : end - 1].strip() == ""
        is_whole = is_rest and until(start, 0, ",;|=") == len(start)
        if not is_whole or not (is_index(code, begin) or is_argument_of_get(code, begin)):
            yield found.start()


def is_index(code: str, begin: int) -> bool:
    """Tells whether an index begins here: brackets after an operand."""
    operand = OPERAND.search(code, max(0, begin - 80), begin) if begin >= 0 else None
    if operand is None or operand[1] in NO_OPERAND:
        return False
    return code[begin] == "[" and operand[0].strip() != "}"


def is_argument_of_get(code: str, begin: int) -> bool:
    """Tells whether the arguments of a call of `get` begin here."""
    return code[begin] == "(" and GET.search(code, max(0, begin - 80), begin) is not None


def errors_of_write(code: str) -> Iterator[int]:
    """Yields where the error of `write!` gets to code that may see which type it has.

    It doesn't where it is dropped, made an error of Rust, or returned by a `fmt`.
    """
    for found in WRITTEN.finditer(code):
        end = end_of_group(code, found.end()) if code.startswith("(", found.end()) else None
        if end and HANDLED.match(code, end):
            continue
        begin = start_of_group(code, found.start())
        is_last = (
            end
            and re.match(r"\s*\}", code[end:])
            and re.search(r"[;{}]\s*(?:\w+\s*(?:\.|::)\s*)*$", code[: found.start()])
        )
        if not (is_last and begin >= 0 and code[begin] == "{" and FMT.search(code, 0, begin)):
            yield found.start()


def clones_of_a_map(code: str) -> Iterator[int]:
    """Yields where what maps something names `clone`, or a closure ends in it."""
    for found in re.finditer(r"(?:\.|::)\s*\w*map\w*\s*(?:::\s*<[^()]*>\s*)?\(", code):
        if re.search(r"\bclone\b", code[found.end() : end_of_group(code, found.end() - 1)]):
            yield found.start()
    for found in re.finditer(r"\|[^|;{}]*\|\s*\{?[^|;{}]*\.\s*clone\s*\(\s*\)\s*,?\s*[)};]", code):
        yield found.start()


def impls_on_all_types(code: str) -> Iterator[int]:
    """Yields where all types with a bound get a trait, but may have the bound only in the kit."""
    for found in IMPL.finditer(code):
        bounds_of = parameters(code, found.end())
        end = end_of_angles(code, found.end())
        line = " ".join(code[end : until(code, end, "{;")].split())
        header, _, where = re.sub(r"\bwhere\b", "\n", line).partition("\n")
        trait, _, target = re.sub(r"\bfor\b(?!\s*<)", "\n", header).rpartition("\n")
        target = re.sub(r"^(?:&\s*(?:'\w+\s*)?(?:mut\s+)?|\s)*", "", target).strip("() ")
        for piece in split(where):
            name, _, bounds = piece.partition(":")
            bounds_of[name.strip()] = bounds_of.get(name.strip(), "") + "+" + bounds
        own = {bound.strip() for bound in bounds_of.get(target, "").split("+")} - {""}
        is_bare = trait and target in bounds_of
        if is_bare and not (own <= BLANKET and bounds_of[target].strip()):
            yield found.start()
        elif trait and any(re.search(DERIVED, bounds) for bounds in bounds_of.values()):
            yield found.start()


def angles_around(code: str, begin: int, here: int) -> Iterator[int]:
    """Yields each `<` after which this place is, back to the start of the statement."""
    depth, brackets, at = 0, 0, here - 1
    while at > begin and code[at] not in "{}" and not (code[at] == ";" and brackets <= 0):
        brackets += (code[at] == "]") - (code[at] == "[")
        depth += (code[at] == ">" and code[at - 1] not in "-=") - (code[at] == "<")
        if depth < 0:
            depth = 0
            yield at
        at -= 1


def types_of_self(code: str) -> Iterator[int]:
    """Yields where in a trait a type has `Self` as its argument, and no call returns it."""
    for body in bodies(code, TRAIT):
        for found in re.finditer(r"\bSelf\b", code[body.start : body.end]):
            here = body.start + found.start()
            if any(
                not RESULT.search(code, body.start, at) or re.search(r"[&*]", code[at:here])
                for at in angles_around(code, body.start, here)
            ):
                yield here


def arrays_in_variants(code: str) -> Iterator[int]:
    """Yields where a pattern that may not match names elements of an array in something else."""
    for found in re.finditer(r"\blet\b", code):
        end = found.end()
        while True:
            end = until(code, end, "=;")
            if code[end : end + 1] != "=" or (
                code[end - 1] not in ".<>=!" and code[end + 1 : end + 2] not in (">", "=")
            ):
                break
            end += 1 + (code[end + 1 : end + 2] == "=")
        is_plain = not re.search(r"(?:\b(?:if|while)|&&|\|\||[(=])\s*$", code[: found.start()])
        statement = code[found.end() : until(code, found.end(), ";")]
        if is_plain and not re.search(r"\belse\b", statement):
            continue
        depth = 0
        for char in code[found.end() : end]:
            depth += (char in "({") - (char in ")}")
            if char == "[" and depth > 0:
                yield found.start()
                break


def rests_of_elements(code: str) -> Iterator[int]:
    """Yields where the rest of a struct is that of an element.

    The kit doesn't read the element where all fields are written.
    """
    for found in re.finditer(r"[,{]\s*\.\.(?![.=])", code):
        rest = code[found.end() : until(code, found.end(), "")]
        if re.search(r"\[|\bindex(?:_mut)?\b", rest):
            yield found.start()


def sizes_of_parameters(code: str) -> Iterator[int]:
    """Yields where the size is that of a type without a name, which may be a closure."""
    names = type_parameters(code) | {"Self", "_", "fn", "impl", "dyn"}
    for found in SIZE.finditer(code):
        if names & set(re.findall(r"\w+", code[found.end() : end_of_angles(code, found.end())])):
            yield found.start()


def renames(code: str) -> Iterator[int]:
    """Yields where an import gives a name of std another name, or has all names of a module."""
    for found in re.finditer(r"\buse\b[^;]*;", code):
        of_std = re.search(
            r"\b(?:std|core|alloc)\b|\buse\s+(?:\{|[^;]*\b(?:thread|iter|mem)\b)", found.group()
        )
        named = re.sub(r"\bstd::simd::prelude::\*|\bas\s+_\b", "", found.group())
        if of_std and re.search(r"\bas\b|\*", named):
            yield found.start()


def methods_of_std(code: str, path: str) -> Iterator[int]:
    """Yields where a trait names a method as std does: some calls run another one than in Rust."""
    for body in bodies(code, TRAIT):
        named = set(re.findall(r"\bfn\s+(\w+)", code[body.start : body.end])) & METHODS_OF_STD
        if named and body.header[1] not in ALONE.get(path, set()):
            yield body.header.start()
