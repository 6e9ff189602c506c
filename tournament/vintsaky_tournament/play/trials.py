"""Tries engines for a run, and writes down how that ended."""
from __future__ import annotations

import os
import time

from .. import output
from ..store import results
from ..store.layout import new_file
from ..store.versions import add_version
from . import programs
from .known import EngineState, KnownEngines, LongWait
from .trial import Report, Trial, TrialOutcome, report_of


def try_engine(known: KnownEngines, name: str) -> bool:
    """Tries an engine, and reports what it can't do. Returns whether it can be started."""
    place = f"{known.place}/{name}.log"
    log = new_file(place)
    report = report_on(known, name, log)
    os.close(log)
    lines = results.last_lines(place)
    if not lines:
        os.unlink(place)
    if report.outcome is TrialOutcome.PASSED or report.version:
        twogtp = programs.version_of(known.match.twogtp)
        add_version(known.place, name, report.version, twogtp)
    if report.outcome is TrialOutcome.PASSED:
        known.note(EngineState.PASSED, name)
    elif not known.run.stopped:
        tell(known, name, report, lines)
    if report.outcome is TrialOutcome.NOT_STARTED:
        return False
    known.done.add(name)
    return True


def tell(known: KnownEngines, name: str, report: Report, lines: list[bytes]) -> None:
    """Reports what an engine can't do, and writes it down, except of a trial that broke."""
    reason = report.failure or "its trial was ended"
    if lines:
        log = f"{known.run.folder}/{known.name}/{name}.log"
        errors = [line for line in lines if b"error:" in line.lower()]
        line = errors[-1] if errors and report.outcome is TrialOutcome.NOT_STARTED else lines[-1]
        which = "the last line" if line == lines[-1] else "a line"
        reason += f"; {which} of {log} is: {results.quote(line)}"
    if report.outcome is TrialOutcome.NOT_STARTED:
        output.report(f"{name} can't be started here: {reason}")
        known.note(EngineState.UNSTARTED, name, str(time.time()), reason)
    else:
        output.report(f"{name}: {reason}")
        if report.outcome is TrialOutcome.UNABLE:
            known.note(EngineState.UNABLE, name, str(tuple(known.limits)), reason)


def report_on(known: KnownEngines, name: str, log: int) -> Report:
    """Tries an engine in a process of its own, and returns its report."""
    command, folder = known.match.command(name, 1), known.match.folder
    trial = Trial(name, command, folder, log, known.setup, known.limits, known.plan.clock)
    reads, writes = os.pipe()
    own = os.getpid()
    process = os.fork()
    if not process:
        os.close(reads)
        trial.run(own, writes)
    os.close(writes)
    status = wait_for(known, name, process)
    with open(reads, "rb") as file:
        return report_of(status, os.fsdecode(file.read()))


def wait_for(known: KnownEngines, name: str, process: int) -> int:
    """Waits for the end of a trial, and returns the status of its process. Where the run is
    stopped, the trial is ended."""
    processes, (answer, move, _) = known.run.tree, known.limits
    times = f"its start and each answer may take {answer:g} seconds, and its move {move:g}"
    wait = LongWait(f"{name} is tried: {times}")
    processes.awaited.add(process)
    while process not in processes.ended and not known.run.stopped:
        known.run.wait_for_signal(wait.seconds_left())
    if process not in processes.ended:
        processes.end(seconds=1)
    status = processes.ended.pop(process, -1)
    if status < 0:
        processes.end()
    return status
