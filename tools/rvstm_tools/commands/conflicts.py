import argparse
from pathlib import Path

from rvstm_tools import options
from rvstm_tools.errors import Status
from rvstm_tools.options import Command, argument
from rvstm_tools.pictures.waits import Picture
from rvstm_tools.programs import finding, running
from rvstm_tools.programs.blockfiles import of_block
from rvstm_tools.texts import conflicts


def run(given: argparse.Namespace) -> int:
    view = options.view(given)
    program = finding.chosen(options.program_choice(given), "conflicts")
    with of_block(program, given.file, given.block, view) as block:
        found = conflicts.conflicts_of(running.run_file(program, "conflicts", block.path, block.folder))
    picture = Picture(Path(given.file).name, found, block.view).svg()
    given.svg.write_text(picture, encoding="ascii", errors="xmlcharrefreplace")
    return Status.DONE


COMMAND = Command(
    summary="Draws which calls of a block wait for which.",
    example="rvstm-tools conflicts votes.block --svg votes.svg --list votes.list",
    run=run,
    arguments=(
        options.add_program,
        options.LIST,
        argument("file", metavar="FILE", help="a block file, or a list"),
        argument("--block", type=options.number(0, 2**63 - 1), metavar="N", help="the block of a list that has several, from 0"),
        argument("--svg", type=Path, required=True, metavar="OUT", help="a file for the picture"),
    ),
)
