"""How a call of a failed test ended, for people: the end, the line of the source, and the size that was too large."""

import os
import re
from pathlib import Path

from rvstm_tools.debugging import charges, sources
from rvstm_tools.debugging.charges import StorageCall
from rvstm_tools.debugging.replays import A1, A2, A7, OUTPUTS, Frame, StorageReplay
from rvstm_tools.debugging.sessions import CallOf
from rvstm_tools.debugging.sources import Chains, Inlined
from rvstm_tools.errors import UserError
from rvstm_tools.programs import finding, running
from rvstm_tools.programs.elf import ElfFile
from rvstm_tools.programs.running import InTurn
from rvstm_tools.texts import blocks
from rvstm_tools.texts.blocks import Rules
from rvstm_tools.texts.results import End, Receipt

MOST_STEPS = 1_000_000  # of a call that is replayed to find who called the SDK
OF_THE_LANGUAGE = re.compile("/rustc/|/library/(core|alloc|std)/|/compiler_builtins")  # sources that no author wrote
MOST_OUTPUT = 256


def size_of(receipt: Receipt, rules: Rules) -> str:
    """The size that was too large, such as `a WRITE of 88 bytes: at most 64 under rules 1`; empty if none was."""
    if receipt.end is End.TOO_MANY_WRITES:
        return f"a key more than {blocks.MOST_KEYS}, the most that a call changes"
    if receipt.end not in (End.BAD_LENGTH, End.UNKNOWN_CALL) or not receipt.registers:
        return ""
    number = receipt.registers[A7]
    name = charges.NAMES[number] if number < len(charges.NAMES) else f"{number}"
    if receipt.end is End.UNKNOWN_CALL:
        return f"the storage call {name}, under rules {rules}"
    if number in OUTPUTS:
        return f"a {name} of {receipt.registers[A1]} bytes: at most {MOST_OUTPUT}"
    up_to = "up to " if number == StorageCall.READ else ""
    return f"a {name} of {up_to}{receipt.registers[A2]} bytes: at most {rules.longest_value} under rules {rules}"


def place_of(rvstm: Path, run: InTurn, number: int, folder: Path, program: str) -> str:
    """The line of the source at which a call ended, and its function; empty if the lines of the program are not known. If that is
    in the SDK or in the language's own library, as after a panic in Rust, it is the line that called it."""
    path = os.path.join(folder, program)
    lines, tool = sources.lines_file_of(path), sources.address_tool()
    if not tool or not os.path.isfile(lines):
        return ""
    receipt = run.result.receipts[number]
    try:
        file = ElfFile(lines)
        sources.check_is_of(file, path)
        place = author_place(sources.chains_of(file, [receipt.pc], tool), [receipt.pc])
        if not place and receipt.gas <= MOST_STEPS:
            with running.temporary_file(run.text, ".block") as made:
                replay = StorageReplay(CallOf(rvstm, made, number, folder), 1)
            addresses = [receipt.pc, *callers_of(replay.last_frame)]
            place = author_place(sources.chains_of(file, addresses, tool), addresses)
    except UserError:
        return ""  # the command that shows more says why
    return f"{sources.short_place(place.line)} in {place.function}" if place else ""


def callers_of(frame: Frame) -> list[int]:
    """The addresses of the calls that lead to a frame, the innermost first."""
    found = []
    while frame.caller:
        found.append(frame.call_pc)
        frame = frame.caller
    return found


def author_place(chains: Chains, addresses: list[int]) -> Inlined | None:
    """The innermost function that is of the author, of some addresses with the innermost first."""
    sdk = finding.sdk_prefix()
    for inlined in (inlined for address in addresses for inlined in reversed(chains[address])):
        line = sources.source_line(inlined.line)
        if line and not line.path.startswith(sdk) and not OF_THE_LANGUAGE.search(line.path):
            return inlined
    return None
