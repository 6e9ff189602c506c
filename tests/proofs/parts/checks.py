"""Checks of a crate with edits in it, and what they say of each edit."""
from __future__ import annotations

import re
import subprocess
import tempfile
from pathlib import Path
from typing import Callable, NamedTuple

from .crates import RT, TOP, copy_crates
from .edits import Edit, applied
from .places import Batch, batches, place_of, places

# What the check says of a written answer that names what is gone: its goal is then open, whatever
# the body does. And of one that depends on another one, which says nothing more.
GONE = re.compile(r"has no field|is not in scope|has no `")
FOLLOWS = re.compile(r"was not admitted|was not checked")

NOTE = re.compile(r"^note: (src/\S+?):(\d+):\d+: it is not proved (.*)", re.MULTILINE)
ANSWER = re.compile(
    r"^(?:note: )?\./proofs/(\S+)/(?:Answers|Invariants|Proof)\.antt:\d+:\d+: error: (.*)",
    re.MULTILINE,
)


def is_proved(crate: str, jobs: int) -> bool:
    """Checks the crate as it is. The checks of its copies use what that leaves."""
    done = subprocess.run(
        [*RT, "check", "--jobs", str(jobs)],
        cwd=TOP / "crates" / crate,
        capture_output=True,
        text=True,
        errors="replace",
    )
    if done.returncode:
        print(f"{crate}: {(done.stdout + done.stderr)[-2000:]}", flush=True)
    return done.returncode == 0


class Checked(NamedTuple):
    """What a check printed, and the seconds of processor time that it took."""

    output: str
    seconds: float


def check(crate: str, texts: dict[str, str]) -> Checked:
    """Checks a copy of the crate with these texts of files."""
    with tempfile.TemporaryDirectory(prefix=f"edits-{crate}-") as name:
        copy = Path(name) / "crates" / crate
        copy_crates(Path(name), crate)
        for file, text in texts.items():
            (copy / file).write_text(text)
        timed = ["bash", "-c", 'TIMEFORMAT="seconds %U %S"; time "$@"', "check"]
        done = subprocess.run(
            [*timed, *RT, "check", "--jobs", "1"],
            cwd=copy,
            capture_output=True,
            text=True,
            errors="replace",
        )
    times = re.findall(r"^seconds (\S+) (\S+)$", done.stderr, re.MULTILINE)
    seconds = sum(float(user) + float(system) for user, system in times)
    return Checked(done.stdout + done.stderr, seconds)


class Refusals(NamedTuple):
    """Functions that goals of their own refuse, and functions of which this says nothing."""

    goals: dict[str, str]  # such a goal of each function
    reasons: dict[str, str]  # why it says nothing


def refusals(crate: str, texts: dict[str, str], output: str) -> Refusals:
    """Returns the refusals in what a check has printed."""
    goals: dict[str, str] = {}
    reasons: dict[str, str] = {}
    files = dict(texts)
    for file, line, text in NOTE.findall(output):
        if file not in files:
            files[file] = (TOP / "crates" / crate / file).read_text()
        at = sum(len(before) + 1 for before in files[file].split("\n")[: int(line) - 1])
        goal = re.search(r"\(`([^`]*)`\)", text)
        goals.setdefault(place_of(file, files[file], at).path, goal[1] if goal else text)
    for function, why in re.findall(rf"^fn {crate}::(\S+): no proof: (.*)", output, re.MULTILINE):
        if goal := re.search(r"`search` did not prove (.*?)(?:;|$)", why):
            goals[function] = goal[1]
        elif "does not cover" in why:
            reasons[function] = "the borrow checker does not cover it"
    laws = rf"^impl {crate}::(\S+): not proved; antt refuses `([^`]*)`"  # those of a trait
    goals.update(re.findall(laws, output, re.MULTILINE))
    for path, error in ANSWER.findall(output):
        function = path.replace("/", "::")
        if GONE.search(error):
            reasons.setdefault(function, error)
        elif not FOLLOWS.search(error):
            goals.setdefault(function, error)
    return Refusals(goals, reasons)


class Verdict(NamedTuple):
    """The goal that refuses an edit, or why none does."""

    goal: str
    reason: str


def verdict_on(edit: Edit, refused: Refusals) -> Verdict:
    """Returns what a check says of an edit."""
    changed = places(edit)

    def of_changed(lines: dict[str, str]) -> list[str]:
        return [
            f"{function}: {line}"
            for function, line in lines.items()
            if any(place.has(function) for place in changed)
        ]

    if reasons := of_changed(refused.reasons):
        return Verdict("", "; ".join(reasons)[:300])
    goals = of_changed(refused.goals)
    return Verdict(goals[0][:150] if goals else "", "no goal of its function refuses it")


def try_edits(crate: str, edits: list[Edit], report: Callable[[bool, str], None]) -> None:
    """Tries a crate's edits, many in one check, and alone those that it doesn't show refused."""
    left = list(batches(edits))
    checks, seconds = 0, 0.0
    while left:
        batch = left.pop(0)
        checked = check(crate, batch.texts)
        checks, seconds = checks + 1, seconds + checked.seconds
        refused = refusals(crate, batch.texts, checked.output)
        if f"\nfn {crate}::" not in checked.output:
            print(f"{crate}: no function is named: {checked.output[-2000:]}", flush=True)
        for edit in batch.edits:
            verdict = verdict_on(edit, refused)
            if verdict.goal:
                report(True, f"{edit.name} is refused by {verdict.goal}")
            elif len(batch.edits) == 1:
                report(False, f"{edit.name}: {verdict.reason}")
            else:
                left.append(Batch([edit], applied({}, edit) or {}))
    print(
        f"{crate}: {len(edits)} edits in {checks} checks, {seconds:.0f} s of processor time",
        flush=True,
    )
