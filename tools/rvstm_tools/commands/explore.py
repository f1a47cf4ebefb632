import argparse
from pathlib import Path

from rvstm_tools import errors, options
from rvstm_tools.exploring.descriptions import Description
from rvstm_tools.exploring.explorations import SECONDS_TO_SHORTEN, Exploration, Plan
from rvstm_tools.exploring.folders import Folder
from rvstm_tools.exploring.searches import LENGTH, Limits
from rvstm_tools.options import Command, argument
from rvstm_tools.programs import finding

MOST_CALLS = 20_000  # in all, if no other number is asked for


def limits_of(given: argparse.Namespace) -> Limits:
    calls = given.calls or (MOST_CALLS if given.seconds is None else options.MOST_ASKED_FOR)
    return Limits(calls, given.length, given.seconds, given.seed)


def plan_of(given: argparse.Namespace) -> Plan:
    program = finding.chosen(options.program_choice(given), "explore")
    description = Description(given.file)
    description.replace(given.replace)
    folder = None if given.folder is None else Folder(given.folder, description)
    return Plan(program.path, description, limits_of(given), given.jobs, given.out, folder, given.strict)


def run(given: argparse.Namespace) -> int:
    """Explores. A wrong description is status 2."""
    with errors.taken_for_misuse(), errors.ended_by_signal():
        return Exploration(plan_of(given)).explore()


COMMAND = Command(
    summary="Looks for calls that break what a contract has to keep.",
    example="rvstm-tools explore token.explore --seconds 10",
    run=run,
    arguments=(
        options.add_program,
        options.SEED,
        options.JOBS,
        argument("file", metavar="FILE", help="a description"),
        argument(
            "--calls", type=options.count, metavar="N", help=f"maximum number of calls ({MOST_CALLS:,}; with --seconds as many as come)",
        ),
        argument(
            "--seconds", type=options.positive, metavar="N",
            help=f"how long calls are made at most, and how long a finding is shortened at most ({SECONDS_TO_SHORTEN:.0f})",
        ),
        argument("--length", type=options.count, default=LENGTH, metavar="N", help=f"of a sequence, in calls ({LENGTH})"),
        argument("--strict", action="store_true", help="the status is 1 if a line `call` never returned"),
        argument("--out", type=options.new_file, metavar="LIST", help="a file for the list"),
        argument(
            "--folder", type=Path, metavar="FOLDER",
            help="a folder that keeps what was made and found, with the list as found.list; a run continues from it",
        ),
        argument(
            "--replace", action="append", default=[], metavar="NAME=PATH",
            help="puts another program in place of the one of this name; may be given again",
        ),
    ),
)
