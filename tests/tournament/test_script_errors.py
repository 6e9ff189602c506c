"""Errors of the scripts for tournaments, which no other test provokes."""
from __future__ import annotations

from pathlib import Path

import pytest

from tests.shared.script_errors import ScriptError, check_error, errors_of

PLAN = "tournament plan all --engine 'one=gtp_engine --seed %s' --engine 'two=gtp_engine --seed %s'"
SBATCH = "usage: sbatch --array=1-TASKS tournament.sbatch FOLDER TASKS [OPTION ..]\n"

ERRORS = {
    "tournament/machine": [
        (
            "machine nowhere one",
            2,
            "nowhere can't be read: name the file that --sshloginfile names\n",
        ),
        (
            "touch file; machine file -l me -p 22",
            2,
            "no machine is named after the options of ssh\n",
        ),
        ("machine file", 2, "it needs a FILE of machines, and what Parallel gives to ssh\n{usage}"),
    ],
    "tournament/network": [
        ("network file", 2, "it takes no arguments: direct its output to a file\n{usage}")
    ],
    "tournament/tap": [
        ("tap a/b cat", 2, "there is no directory a for a/b: make it, or name another LOG\n"),
        ("tap log ./engine", 2, "there is no program ./engine: give a path, or a name in PATH\n"),
        ("ln -s /no/file log.1.commands; tap log cat", 2, "log.1.commands can't be written\n"),
        ("mkdir log.1.process; tap log cat", 2, "..log.1.process can't be written\n"),
        ("tap log", 2, "give the name of a LOG and the command of an ENGINE\n{usage}"),
    ],
    "tournament/tournament.sbatch": [
        (
            "printf '#!/bin/sh\\n' > squeue; chmod +x squeue; PATH=$PWD:$PATH "
            'TOURNAMENT=true SLURM_ARRAY_TASK_ID=1 bash "$TOP/tournament/tournament.sbatch" all 2',
            0,
            "squeue doesn't say how much time is left, so a game may be cut off\n",
        ),
        (
            'bash "$TOP/tournament/tournament.sbatch" all 2',
            2,
            "SLURM_ARRAY_TASK_ID is not set: submit it by sbatch, as an array\n" + SBATCH,
        ),
        (
            'bash "$TOP/tournament/tournament.sbatch" all',
            2,
            "give FOLDER and the number of TASKS\n" + SBATCH,
        ),
    ],
    "tournament/between": [("between black", 1, "`tournament` starts it, and nobody else\n")],
    "tournament/patience": [
        ("patience 5 ./engine", 127, "./engine can't be started: No such file or directory\n"),
        (
            "patience soon cat",
            2,
            "write patience [--start SECONDS] SECONDS ENGINE [ARGUMENT ..], with seconds above 0\n",
        ),
    ],
    "tournament/tournament": [
        (f"ulimit -f 0; {PLAN}", 1, "all/plan: it can't be written: File too large\n"),
        (
            f"echo 'D4 I5' > file; {PLAN} --openings file",
            2,
            "line 1 of file: 'I5' is no vertex: "
            "write moves such as D4 Q16 pass; a colour may come first alone\n",
        ),
        (
            f"{PLAN} --engine a_b=cat",
            2,
            "an engine's name may have letters, digits, . + and -, "
            "at most 40 of them, unlike 'a_b'\n",
        ),
        (f"{PLAN} --engine $'a=cat\\n'", 2, "the command of a has more than one line\n"),
        (f"{PLAN} --engine one=cat", 2, "two engines are named one: give each its own name\n"),
        (f"{PLAN} -- $'--komi=7\\n'", 2, "an option has more than one line\n"),
        (
            f"mkdir $'a\\nb'; cd $'a\\nb'; {PLAN}",
            2,
            "the name of the directory {here}/a\nb has more than one line\n",
        ),
        (
            f"{PLAN} -- --size 2 2> /dev/null; tournament game all 1_one_two > /dev/full",
            1,
            "1_one_two: it has a result, but this line was not written\n",
        ),
        (
            f"{PLAN} -- --games 2",
            2,
            "leave out --games: "
            "each game is a run of its own, with its seed; --seeds says how many\n",
        ),
        (
            f"{PLAN} -- --size 6 --handicap 2",
            2,
            "..{twogtp} doesn't play with the options '--size 6 --handicap 2': status 2\n",
        ),
        (
            f'{PLAN} -- --handicap 2; sed -i \'s/"2"]/"1"]/\' all/plan; '
            "tournament export all --sgf new",
            2,
            "the plan has --handicap '1': it is 0, or from 2 to 9\n",
        ),
    ],
    "tournament/tally": [
        (
            f'{PLAN} -- --size 9; sed -i \'s/"9"]/"26"]/\' all/plan; tally all',
            2,
            "the plan has --size '26': it is from 1 to 25\n",
        ),
        (
            f'{PLAN} -- --komi 7; sed -i \'s/"7"]/"7.1"]/\' all/plan; tally all',
            2,
            "the plan has --komi '7.1': it is a multiple of 0.5, such as 6.5\n",
        ),
    ],
}


@pytest.mark.parametrize("error", errors_of(ERRORS), ids=str)
def test_error(
    error: ScriptError, twogtp: Path, environment: dict[str, str], tmp_path: Path
) -> None:
    check_error(error, environment, tmp_path)
