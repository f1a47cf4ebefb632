import argparse
import os
from collections import Counter, defaultdict
from collections.abc import Collection
from pathlib import Path

from rvstm_tools import options
from rvstm_tools.debugging import coverage
from rvstm_tools.debugging.coverage import Covered, SourceFile, Steps
from rvstm_tools.debugging.sessions import CallOf
from rvstm_tools.errors import Status
from rvstm_tools.options import Command, argument
from rvstm_tools.programs import finding, running
from rvstm_tools.programs.running import Program
from rvstm_tools.texts import lists
from rvstm_tools.texts.lists import ListFile
from rvstm_tools.texts.views import View


def run(given: argparse.Namespace) -> int:
    program = finding.chosen(options.program_choice(given), "coverage")
    programs, covered = defaultdict[str, Steps](Steps), Covered(SourceFile)
    read = {path.absolute(): lists.read_list(str(path)) for path in given.lists}
    for path, file in read.items():
        add_list(program, path, file, programs)
    inputs = counts_of_inputs(read.values())
    for path, steps in programs.items():
        coverage.add_program(covered, path, steps)
    shown = {path: covered[path] for path in sorted(covered) if given.sdk or not path.startswith(finding.sdk_prefix())}
    print(f"{inputs.total():,} calls, {sum(steps.total for steps in programs.values()):,} steps")
    if any(inputs):
        print(f"inputs: {', '.join(f'{name} {count:,}' for name, count in inputs.items() if name)}; others {inputs['']:,}")
    for path, source in shown.items():
        for line in coverage.source_lines(os.path.relpath(path), source):
            print(line)
    if given.lcov:
        lines = (line for path, source in shown.items() for line in coverage.lcov_lines(path, source))
        given.lcov.write_text("".join(f"{line}\n" for line in lines), encoding="utf-8")
    return Status.DONE


def counts_of_inputs(read: Collection[ListFile]) -> Counter[str]:
    """How many calls of the lists have each input that one of them has a shape of; all others have no name."""
    view = View()
    for file in read:
        view.inputs = file.view.inputs | view.inputs
    counts = Counter[str](dict.fromkeys(view.inputs, 0))
    for file in read:
        counts.update(view.name_of_input(call.data) for call in file.calls)
    return counts


def add_list(program: Program, path: Path, file: ListFile, programs: defaultdict[str, Steps]) -> None:
    """Replays each call of a list, and adds it to the steps of its program."""
    folder = path.parent
    for run, block in zip(running.in_turn(program, file.blocks, folder), file.blocks):
        running.check_of_list(program, path, block, run)
        with running.temporary_file(run.text, ".block") as made:
            for number, call in enumerate(block.calls):
                steps = programs[os.path.abspath(folder / block.programs[call.program].path)]
                steps.add(CallOf(program.path, made, number, folder))


COMMAND = Command(
    summary="Says which lines and branches of contracts the calls of lists ran.",
    example="rvstm-tools coverage token.list refusals.list --lcov token.info",
    run=run,
    arguments=(
        options.add_program,
        argument("lists", nargs="+", metavar="LIST", type=Path, help="a list, as `rvstm-tools test` takes it"),
        argument("--lcov", metavar="OUT", type=Path, help="a file for the same in the format of lcov"),
        argument("--sdk", action="store_true", help="counts the files of the SDK too"),
    ),
)
