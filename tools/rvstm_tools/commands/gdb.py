import argparse
from collections.abc import Callable

from rvstm_tools import options
from rvstm_tools.debugging.gdb import Server
from rvstm_tools.debugging.moments import DebuggedCall
from rvstm_tools.debugging.packets import Wire
from rvstm_tools.debugging.sessions import CallOf
from rvstm_tools.errors import Status, UserError
from rvstm_tools.options import Command
from rvstm_tools.programs import finding, running
from rvstm_tools.programs.blockfiles import GivenBlock, of_call
from rvstm_tools.programs.running import Program


def run(given: argparse.Namespace) -> int:
    program = finding.chosen(options.program_choice(given), "gdb")
    with of_call(program, given.file, given.call, options.view(given)) as block:
        serve(program, block)
    return Status.DONE


def serve(program: Program, block: GivenBlock) -> None:
    def open_call(hear: Callable[[], None]) -> DebuggedCall:
        try:
            return DebuggedCall(CallOf(program.path, block.path, block.call, block.folder), block.view, hear)
        except UserError as error:
            raise UserError(running.placed_refusal(program, block.path, str(error))) from error

    server = Server(Wire(), open_call)
    try:
        server.serve()
    finally:
        server.close()


COMMAND = Command(
    summary="Lets gdb debug a call of a block forward and backward, by lines of its source.",
    example='gdb-multiarch token.lines.elf -ex "target remote | rvstm-tools gdb token.block --call 2"',
    run=run,
    arguments=(options.add_program, *options.CALL, options.LIST),
)
