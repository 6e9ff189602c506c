"""What the tests of gtp_check share."""
from __future__ import annotations

from pathlib import Path
from typing import List, Sequence, Type

import pytest

from tests.engines.wrong.plain import Plain, run
from tests.references.engine.engine import Engine

from .checking import Checker, Ended, RunEngine


@pytest.fixture(scope="session")
def compiled(tmp_path_factory: pytest.TempPathFactory) -> Path:
    """Returns the folder of what Python compiles for the engines."""
    return tmp_path_factory.mktemp("compiled")


@pytest.fixture
def checker(
    gtp_check: Path, gtp_engine: Path, environment: dict[str, str], compiled: Path, tmp_path: Path
) -> Checker:
    """Returns what checks engines. What an engine keeps for its next process is in `state`."""
    own = {"WRONG_ENGINE_STATE": str(tmp_path / "state"), "PYTHONPYCACHEPREFIX": str(compiled)}
    own = {**environment, **own, "TMPDIR": str(tmp_path)}
    own.pop("PYTHONDONTWRITEBYTECODE", None)
    return Checker(gtp_check, own)


@pytest.fixture
def run_engine(tmp_path: Path, monkeypatch: pytest.MonkeyPatch) -> RunEngine:
    """Returns a function that runs an engine in memory, whose reads give these texts."""
    monkeypatch.setenv("WRONG_ENGINE_STATE", str(tmp_path / "state"))
    unread: List[str] = []
    written: List[str] = []  # before the first read, and after each one

    def receive(engine: Engine) -> str:
        written.append("")
        return unread.pop(0) if unread else ""

    def send(engine: Engine, text: str) -> None:
        written[-1] += text

    monkeypatch.setattr(Engine, "receive", receive)
    monkeypatch.setattr(Engine, "send", send)

    def run_in_memory(kind: Type[Plain], texts: Sequence[str], options: Sequence[str]) -> Ended:
        unread[:], written[:] = texts, [""]
        status = 0
        try:
            run(kind, [*options], "")
        except SystemExit as end:
            status = int(end.code or 0)
        except Exception:  # which ends a process
            status = 1
        first, *others = written + [""] * (len(texts) + 1 - len(written))
        last = len(texts) - 1
        outputs = [first + others[0], *others[1:]]
        return Ended([*outputs[:last], "".join(outputs[last:])], status)

    return run_in_memory
