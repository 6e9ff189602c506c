"""The command `tournament export`: the results for other programs."""
from __future__ import annotations

import gc
import os
from typing import TYPE_CHECKING

from .. import output
from ..config.plan_file import read_plan
from ..output import Mistake
from ..stats.records import Records
from .losses import rules_of

if TYPE_CHECKING:
    from ..config.arguments import Arguments

FORMS = ("--pgn", "--csv", "--jsonl", "--sgf")


def do_export(arguments: Arguments) -> int:
    """Writes what is asked for, and returns the status."""
    forms = [form for form in FORMS if arguments.has(form)]
    if len(forms) != 1:
        raise Mistake("write one of --pgn, --csv, --jsonl and --sgf FOLDER")
    gc.disable()  # nothing here has cycles
    (folder,) = arguments.places
    plan = read_plan(folder)
    records = Records(plan, folder, rules_of(arguments, plan))
    sgf_folder = arguments.last("--sgf", lambda _, place: place)
    if sgf_folder is not None:
        from ..report.sgf import write_records

        write_records(records, sgf_folder)
    elif arguments.has("--pgn"):
        from ..report.pgn import as_pgn

        event = os.path.basename(os.path.abspath(folder))
        output.write_lines(output.STDOUT, as_pgn(records, event))
    else:
        from ..report.tables import as_csv, as_jsonl

        lines = as_csv(records) if arguments.has("--csv") else as_jsonl(records)
        output.write_lines(output.STDOUT, lines)
    if records.without:
        count = f"{records.without} of {records.games.count} games"
        output.report(f"without a result, and so not exported: {count}")
    return 0
