import argparse
import sys
from pathlib import Path

from rvstm_tools import errors, options
from rvstm_tools.errors import MisuseError, Status, UserError
from rvstm_tools.options import Command, argument
from rvstm_tools.texts import lists, results
from rvstm_tools.texts.blocks import Block

ELF_MAGIC = b"\x7fELF"


def run(given: argparse.Namespace) -> int:
    blocks = blocks_of(given.list, given.result)
    report_programs(blocks[0], given.list)
    if given.out is None and len(blocks) > 1:
        raise MisuseError(f"{given.list}: it has {len(blocks)} blocks; --out NAME writes each of them to a file")
    for number, block in enumerate(blocks):
        if given.out is None:
            print(block.text(), end="")
        else:
            path = Path(f"{given.out}-{number:04}.block")
            path.write_text(block.text(), encoding="ascii")
            print(f"written to {path}")
    return Status.DONE


def blocks_of(path: str, result: str | None) -> list[Block]:
    """The blocks of a list, over the storage of a result if one is given."""
    storage = results.read_storage(result) if result is not None else {}
    blocks = lists.read_list(path, storage).blocks
    longest, rules = blocks[0].longest_value(), blocks[0].rules
    if longest > rules.longest_value:  # the list is right, so it is a value of the result
        raise UserError(f"{result}: a value has {longest} bytes, which rules {rules} do not allow")
    return blocks


def report_programs(block: Block, path: str) -> None:
    """Reports files that are not ELF files, with their lines of the list: rvstm names no file if it refuses one."""
    for program in block.programs.values():
        found = found_file(program.path, path)
        if found and not is_elf(found):
            text = f"block: {path}, line {program.line}: {found} is not an ELF file; rvstm refuses the block"
            print(errors.printable(text), file=sys.stderr)


def found_file(program: str, path: str) -> Path | None:
    """The file of a program, if it is found from here or beside the list."""
    places = (folder / program for folder in (Path("."), Path(path).parent))
    return next((place for place in places if place.is_file()), None)


def is_elf(path: Path) -> bool:
    with open(path, "rb") as file:
        return file.read(len(ELF_MAGIC)) == ELF_MAGIC


COMMAND = Command(
    summary="Builds a block file from a list that people can read.",
    example="rvstm-tools block votes.list > votes.block",
    run=run,
    arguments=(
        argument("list", metavar="LIST", help="the list"),
        argument(
            "result", nargs="?", metavar="RESULT",
            help="a result that rvstm printed: its `store` lines are the storage before this block, and the `store` lines of LIST "
            "are put over them. So blocks chain",
        ),
        argument("--out", type=options.new_file, metavar="NAME", help="writes NAME-NUMBER.block for each block of the list"),
    ),
)
