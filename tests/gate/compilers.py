"""The program as the other compiler of `rt ci` built it, Rattle's own: cases of other groups over it."""

import os
from collections.abc import Sequence
from dataclasses import replace
from functools import partial

from gate import tables
from gate.runner import Case, Differs, Lacks, Run, lacks

ENDING = ".by-rattle"
GROUPS = {"tables": tables}
"""Those that fit two minutes of a processor. `tests/run crates/rvstm/out/rvstm.by-rattle` runs all cases."""


def check(run: Run, cases: Sequence[Case]) -> None:
    """The cases, one after the other, each in a folder of its own."""
    setting = replace(run.setting, program=run.program.with_name(f"{run.program.name}{ENDING}"))
    if not setting.program.is_file():
        raise Lacks(f"{setting.program.name}, which `rt ci` builds")
    able = [case for case in cases if not lacks(case, setting)]
    for number, case in enumerate(able):
        folder = run.place / str(number)
        folder.mkdir()
        os.chdir(folder)
        try:
            case.run(replace(run, setting=setting, place=folder))
        except Differs as error:
            raise Differs(f"{case.name}: {error}") from error
    run.note(f"{len(able)} of {len(cases)} cases passed over {setting.program.name}")


def cases() -> list[Case]:
    return [
        Case(f"{name} by Rattle's compiler", partial(check, cases=group.cases()), seconds=300, needs_speed=True, cost=30)
        for name, group in GROUPS.items()
    ]
