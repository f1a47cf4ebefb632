import argparse
import os
from pathlib import Path

from rvstm_tools import options
from rvstm_tools.debugging import charges, traces
from rvstm_tools.debugging.replays import StorageReplay
from rvstm_tools.debugging.sessions import CallOf
from rvstm_tools.debugging.traces import Places
from rvstm_tools.errors import Status, UserError
from rvstm_tools.options import Command, argument
from rvstm_tools.pictures import flames
from rvstm_tools.programs import finding, running
from rvstm_tools.programs.blockfiles import GivenBlock, of_call
from rvstm_tools.programs.running import Program
from rvstm_tools.texts import blockfiles, results
from rvstm_tools.texts.results import Receipt


def run(given: argparse.Namespace) -> int:
    program = finding.chosen(options.program_choice(given), "trace")
    with of_call(program, given.file, given.call, options.view(given)) as block:
        trace(given, program, block)
    return Status.DONE


def trace(given: argparse.Namespace, program: Program, block: GivenBlock) -> None:
    view = block.view
    receipt = receipt_of(program, block)
    head = blockfiles.head_of_call(block.path, block.call)
    replay = StorageReplay(CallOf(program.path, block.path, block.call, block.folder), head.rules)
    replay.end_by(receipt, head.limit)
    places = Places(str(block.folder / head.program), given.lines, replay.addresses())
    title = f"call {given.call} of {os.path.basename(given.file)}"
    root = traces.bars_of(replay, places, title)
    for line in (
        f"{title}: {receipt.end}, {replay.total} steps, gas {receipt.gas} of {head.limit}, pc {receipt.pc:08x}",
        *filter(None, [view.input(head.data)]), "", *traces.storage_lines(replay, places, receipt, view), *traces.end_lines(replay, places, receipt),
        "", *traces.sum_lines(root),
    ):
        print(line)
    if given.svg:
        picture = flames.svg(root, f"{title}: {receipt.end}, {receipt.gas:,} gas", charges.NAMES)
        given.svg.write_text(picture, encoding="utf-8")


def receipt_of(program: Program, block: GivenBlock) -> Receipt:
    """The receipt of the call by `rvstm seq`. A UserError if the block has no such call."""
    receipts = results.result_of(running.run_file(program, "seq", block.path, block.folder)).receipts
    if block.call not in range(len(receipts)):
        raise UserError(f"{block.path}: there is no call {block.call}; its {len(receipts)} calls count from 0")
    return receipts[block.call]


COMMAND = Command(
    summary="Traces a call of a block: its storage calls, and its gas by function.",
    example="rvstm-tools trace votes.block --call 2 --svg votes.svg",
    run=run,
    arguments=(
        options.add_program,
        *options.CALL,
        options.LIST,
        argument("--lines", metavar="ELF", help="the program of the call with its symbols and lines"),
        argument("--svg", type=Path, metavar="OUT", help="a file for the flame graph"),
    ),
)
