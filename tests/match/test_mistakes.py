"""Matches in which the command of an engine is a mistake: how twogtp ends them, and why."""
from __future__ import annotations

import contextlib
import os
import re
import shutil
from pathlib import Path
from typing import Mapping, NamedTuple

import pytest

from tests.references.engine.values import BLACK
from tests.shared.processes import run

from .mistakes import ALL_UNANSWERED, MISTAKES, SPOKEN, Mistake, Spoken

OTHER_USER = ["setpriv", "--reuid=64321", "--regid=64321", "--clear-groups"]  # runs nothing else


class Result(NamedTuple):
    """The result of a match."""

    status: int
    output: str
    errors: str


def command_of(mistake: Mistake, twogtp: Path) -> list[str]:
    """Returns the command of the match. Where there are limits that can't be set, it is skipped."""
    command = [str(twogtp)]
    if mistake.limits:
        user = OTHER_USER if mistake.as_other_user and os.geteuid() == 0 else []
        limited = [*user, "prlimit", *mistake.limits]
        if not shutil.which("prlimit") or run([*limited, "true"]).returncode != 0:
            pytest.skip(f"these limits can't be set: {' '.join(mistake.limits)}")
        # the folders above twogtp may be closed to another user
        command = [*limited, "./twogtp" if mistake.as_other_user else str(twogtp)]
    sides = [mistake.command, mistake.other]
    black, white = sides if mistake.side == BLACK else reversed(sides)
    return [*command, "--black", black, "--white", white, *mistake.options]


def make_engine(mistake: Mistake, folder: Path) -> Path:
    """Makes the file of the engine, and returns its path."""
    engine = folder / mistake.path
    engine.parent.mkdir(parents=True, exist_ok=True)
    if mistake.link:
        engine.symlink_to(mistake.link)
    else:
        content = mistake.content
        engine.write_bytes(content if isinstance(content, bytes) else content.encode())
        engine.chmod(mistake.mode)
    return engine


def play(
    mistake: Mistake, twogtp: Path, environment: Mapping[str, str], folder: Path, *options: str
) -> Result:
    """Returns the result of the match with these further options."""
    engine = make_engine(mistake, folder)
    cwd = folder / mistake.folder
    cwd.mkdir(exist_ok=True)
    if mistake.as_other_user:
        cwd.chmod(0o755)
        shutil.copy(twogtp, cwd)
    own: dict[str, str] = {**environment, "HOME": str(folder)}
    if mistake.search_path is not None:
        own["PATH"] = mistake.search_path
    command = [*command_of(mistake, twogtp), *options]
    with contextlib.ExitStack() as stack:
        if mistake.is_being_written:
            stack.enter_context(open(engine, "ab"))
        done = run(command, cwd=cwd, env=own)
    return Result(done.returncode, done.stdout, done.stderr)


def spoken_by(spoken: Spoken, environment: Mapping[str, str]) -> str:
    """Returns what a program writes to its standard error when it is run alone."""
    text: str = run(spoken.command, spoken.text, env=environment).stderr
    assert text != ""
    return text


each_mistake = pytest.mark.parametrize("mistake", MISTAKES, ids=lambda row: row.name)


@each_mistake
def test_match(
    mistake: Mistake, twogtp: Path, gtp_engine: Path, environment: dict[str, str], tmp_path: Path
) -> None:
    errors = mistake.errors
    if isinstance(errors, Spoken):
        errors = spoken_by(errors, environment) * errors.times
    result = play(mistake, twogtp, environment, tmp_path)
    assert result == Result(mistake.status, f"{mistake.line}\n", errors)


@each_mistake
def test_match_with_why(
    mistake: Mistake, twogtp: Path, gtp_engine: Path, environment: dict[str, str], tmp_path: Path
) -> None:
    why = mistake.why
    if isinstance(mistake.errors, Spoken):
        why = why.replace(SPOKEN, spoken_by(mistake.errors, environment))
    result = play(mistake, twogtp, environment, tmp_path, "--why")
    if mistake.early_end:
        failed = f"writing failed, {mistake.early_end}; nothing of it was read"
        line = re.findall("^twogtp: .*\n", why, re.MULTILINE)[0]
        unwritten = f"twogtp: game 1: black: {ALL_UNANSWERED}: {failed}\n"
        result = result._replace(errors=result.errors.replace(unwritten, line))
    assert result == Result(mistake.status, f"{mistake.line}\n", why)
