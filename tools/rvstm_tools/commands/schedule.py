import argparse
import sys
from collections.abc import Sequence
from pathlib import Path

from rvstm_tools import options
from rvstm_tools.errors import MisuseError, Status
from rvstm_tools.options import Command, argument
from rvstm_tools.programs import finding, running
from rvstm_tools.programs.running import Runner
from rvstm_tools.texts import schedules

LENGTH = options.number(0, schedules.MOST_ENTRIES)


def run(given: argparse.Namespace) -> int:
    is_continued = given.to_done is not None
    if is_continued != (given.schedule is not None) or is_continued == (given.length is not None):
        raise MisuseError("it wants a LENGTH, or --to-done BLOCK and --from SCHEDULE")
    if is_continued:
        program = finding.chosen(options.program_choice(given), "schedule")
        lines = continuation(program, given.to_done, given.workers, given.schedule.read_text(errors="replace", encoding="utf-8"))
    else:
        lines = schedules.entries(given.workers, given.length, given.form)
    sys.stdout.write(schedules.text_of(lines))
    return Status.DONE


def continuation(runner: Runner, block: str, workers: int, begun: str) -> Sequence[int]:
    """The workers of the entries that have to follow a schedule, until all are done."""
    def refusal(added: Sequence[int]) -> str:
        with running.temporary_file(begun + schedules.text_of(added), ".schedule") as path:
            words = ["drive", block, "--workers", str(workers), "--schedule", path]
            return runner.run(words, Path()).refusal

    return schedules.entries_to_done(refusal, workers)


COMMAND = Command(
    summary="Prints a schedule file for `rvstm drive`: one worker number a line.",
    example="rvstm-tools schedule 4 1000 random 7 > block.schedule",
    run=run,
    arguments=(
        options.add_program,
        argument("workers", type=options.number(1, schedules.MOST_WORKERS), metavar="WORKERS", help="how many workers there are, 1 to 32"),
        argument("length", type=LENGTH, nargs="?", metavar="LENGTH", help="how many entries are printed"),
        argument("form", nargs="*", metavar="FORM", help=f"{schedules.FORMS}; without it turns"),
        argument("--to-done", metavar="BLOCK", help="prints what must follow a list for this block file"),
        argument("--from", type=Path, dest="schedule", metavar="SCHEDULE", help="the list that is continued"),
    ),
)
