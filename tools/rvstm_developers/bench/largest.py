import argparse
import hashlib
from collections.abc import Sequence
from pathlib import Path

from rvstm_developers import options, texts
from rvstm_developers.bench import blocks, processes, tables
from rvstm_developers.machine_code import EXECUTE, FIRST_ADDRESS, READ, WRITE, ElfPart, elf_of
from rvstm_developers.texts import word
from rvstm_tools.errors import UserError
from rvstm_tools.options import Command
from rvstm_tools.programs.elf import ElfFile
from rvstm_tools.texts.blocks import CallLine

FILE_BYTES, HEADERS = 131_072, 52 + 2 * 32
DATA = 0x2_0000
PROGRAMS, CALLS, KEYS, FEW_CALLS = 64, 1024, 256, 251
GAS = 1_000_000
LONG_LIST, SHORT_LIST = 20_000_000, 65_535  # entries of the schedules


def program_of(text: bytes, number: int) -> bytes:
    """A program file of the greatest size: a text, and data whose first word is the number."""
    data = word(number).ljust(FILE_BYTES - HEADERS - len(text), b"\x55")
    return elf_of(ElfPart(FIRST_ADDRESS, text, READ | EXECUTE), ElfPart(DATA, data, READ | WRITE))


def block_text(programs: int, calls: int) -> str:
    made = [CallLine(number % programs, GAS, word(KEYS) + word(number)) for number in range(calls)]
    return texts.block_text([f"{number}.elf" for number in range(programs)], {}, made)


def measured(rvstm: Path, place: Path, words: Sequence[str]) -> bytes:
    """The digest of what a command printed. Prints its seconds, and the most memory that it had."""
    spent = processes.sound(processes.timed([rvstm, *words], place, result="result"))
    tables.print_row([f"`{' '.join(words)}`", f"{spent.seconds:.2f}", f"{spent.mebibytes:.0f}"])
    with open(place / "result", "rb") as result:
        return hashlib.file_digest(result, "sha256").digest()


def run(given: argparse.Namespace) -> int:
    tables.print_head(["command", "seconds", "MiB"])
    with texts.new_folder() as place:
        text = ElfFile(str(blocks.assemble(given.rvstm, place, "write"))).segments[0].data
        for number in range(PROGRAMS):
            (place / f"{number}.elf").write_bytes(program_of(text, number))
        (place / "large.block").write_text(block_text(PROGRAMS, CALLS), encoding="utf-8")
        (place / "few.block").write_text(block_text(1, FEW_CALLS), encoding="utf-8")
        (place / "long.schedule").write_text("0\n" * LONG_LIST, encoding="utf-8")
        (place / "few.schedule").write_text("0\n" * SHORT_LIST, encoding="utf-8")
        for block, schedule in (("large.block", "long.schedule"), ("few.block", "few.schedule")):
            wanted = measured(given.rvstm, place, ["seq", block])
            found = [measured(given.rvstm, place, ["run", block, "--workers", str(count)]) for count in (1, 4, 32)]
            found.append(measured(given.rvstm, place, ["drive", block, "--workers", "1", "--schedule", schedule]))
            if any(digest != wanted for digest in found):
                raise UserError(f"{block}: a result differs from that of seq")
    return 0


COMMAND = Command(
    "Times the largest inputs, and prints for each command the seconds and the most memory that it had, in MiB.",
    "crates/rvstm/out/rvstm",
    run,
    (options.RVSTM,),
)
