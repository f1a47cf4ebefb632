"""Lines of sources: the functions and lines of addresses, by llvm-addr2line or its like."""

import os
import shutil
import subprocess
from collections.abc import Iterable, Sequence
from typing import NamedTuple

from rvstm_tools.errors import UserError
from rvstm_tools.programs.elf import ElfFile, plain_name

ADDRESS_TOOLS = ("llvm-addr2line", "riscv64-unknown-elf-addr2line", "riscv32-unknown-elf-addr2line")
NO_TOOL = f"there is none of {', '.join(ADDRESS_TOOLS)}; install the package llvm"
UNKNOWN = "??"
LOCAL_LABEL = ".L"  # How a label begins that a compiler made for a jump. A tool takes it for a function if no line is known.


class Inlined(NamedTuple):
    """A function at an address, and its line as the tool prints it, FILE:LINE and more; empty without a tool."""

    function: str
    line: str


class SourceLine(NamedTuple):
    path: str
    number: int


Chains = dict[int, list[Inlined]]  # of addresses the functions that are there, each inlined in the one before it


def address_tool() -> str | None:
    """The path of an addr2line; None if the machine has none."""
    return next(filter(None, map(shutil.which, ADDRESS_TOOLS)), None)


def lines_file_of(path: str) -> str:
    return f"{path.removesuffix('.elf')}.lines.elf"


def check_is_of(lines: ElfFile, path: str) -> None:
    """Refuses a program with lines that does not load what a program loads."""
    if lines.segments != ElfFile(path).segments:
        raise UserError(f"{lines.path}: not the program of {path} with its lines: make both from one source with one compiler")


def chains_of(program: ElfFile, addresses: Sequence[int], tool: str | None) -> Chains:
    """The functions and lines of some addresses; without a tool the functions alone."""
    chains = {address: [Inlined(program.function_at(address), "")] for address in addresses}
    if not tool:
        return chains
    words = [tool, "-a", "-f", "-i", "-C", "-e", program.path]
    given = "".join(f"{address:#x}\n" for address in addresses if program.is_code(address))
    done = subprocess.run(words, input=given, capture_output=True, encoding="utf-8", errors="backslashreplace", check=False)
    if done.returncode:
        raise UserError(f"{tool} ended with status {done.returncode}: {done.stderr.strip()}")
    for part in f"\n{done.stdout}".split("\n0x")[1:]:
        address, *lines = part.splitlines()
        chain = chain_of(lines, program.function_at(int(address, 16)))
        if chain:
            chains[int(address, 16)] = chain
    return chains


def chain_of(lines: Sequence[str], function: str) -> list[Inlined]:
    """The functions that a tool names for an address, in pairs of lines, the innermost first. `function` is what the symbols of
    functions say, in place of a label."""
    pairs = [(name, line) for name, line in zip(lines[::2], lines[1::2]) if name != UNKNOWN]
    return [Inlined(function if name.startswith(LOCAL_LABEL) else plain_name(name), line) for name, line in reversed(pairs)]


def places_of(chains: Chains, line: str) -> list[int]:
    """The addresses at which code of FILE:LINE begins: its own, or of functions that are inlined there."""
    path, _, number = line.rpartition(":")
    found, before = list[int](), None
    for address in sorted(chains):
        known = [source_line(inlined.line) for inlined in chains[address]]
        depth = next((at for at, one in enumerate(known, 1) if one and f"{one.number}" == number and one.path.endswith(f"/{path}")), 0)
        copy = known[:depth]  # the line, and the calls around it
        if copy and copy != before:
            found.append(address)
        before = copy
    return found


def short_place(line: str) -> str:
    """FILE:LINE without its folder; nothing if it is not known."""
    place = os.path.basename(without_discriminator(line))
    return "" if place.startswith("?") or place.endswith((":0", ":?")) else place


def source_line(line: str) -> SourceLine | None:
    """The file, by its whole path, and the line; None if either is unknown."""
    path, _, number = without_discriminator(line).rpartition(":")
    is_known = path and path != UNKNOWN and number.isdecimal() and int(number)
    return SourceLine(os.path.realpath(path), int(number)) if is_known else None


def without_discriminator(line: str) -> str:
    """A line without what tells several parts of it apart."""
    return line.split(" (discriminator")[0]


def names(chain: Iterable[Inlined]) -> list[str]:
    return [inlined.function for inlined in chain]
