"""What authors of contracts stumble over: sources that are built as a row says, with what `rvstm seq` prints of them.

The rows were made with clang and lld 14.0.6, GCC 12.2.0 and GNU ld 2.40; other versions may link otherwise.
"""

import shutil
import tomllib
from collections.abc import Sequence
from dataclasses import dataclass
from functools import partial
from pathlib import Path

from gate.calls import command, rvstm
from gate.runner import CONTRACTS, TOP, Case, Run, Tool, same, shown
from gate.texts import GivenCall, block, ends, written

FOLDER, SDK = TOP / "examples/stumbles", TOP / "sdk"
COMPILERS = {"clang": ["clang", "--target=riscv32-unknown-elf", "-mno-relax", "-fuse-ld=lld"], "gnu": ["riscv64-unknown-elf-gcc"]}
FLAGS = ["-march=rv32im", "-mabi=ilp32", "-O2", "-ffreestanding", "-fno-pic", "-nostdlib", "-static", "-w", "-I", str(SDK)]
START, SCRIPT = f"{SDK}/start.S", f"-Wl,-T,{SDK}/contract.ld"
# How a program is linked without the Makefile of the sdk.
LINKS = {
    "default": [START, "-Wl,-e,start"],
    "empty.ld": [START, f"-Wl,-T,{FOLDER}/empty.ld"],
    "shared.ld": [START, f"-Wl,-T,{FOLDER}/shared.ld"],
    "single.ld": [START, f"-Wl,-T,{FOLDER}/single.ld"],
    "alone": [SCRIPT],
    "start": [START, SCRIPT],
    "debug": [START, SCRIPT, "-g"],
}
NOT_LINKED = "not linked: "
TABLE = Path(__file__).with_suffix(".toml")


@dataclass(frozen=True)
class StumbleRow:
    """A source, how it is built, the input of its call, and what is printed."""

    source: str
    compilers: Sequence[str]
    link: str
    more: str
    """Further flags. LIBGCC is the library of GCC, for a row of clang too."""
    data: str
    wanted: str
    """The end of the call and its output, or the refusal of the block, or why it is not linked."""


ROWS = [
    StumbleRow(source, compilers.split(), *others)
    for source, compilers, *others in tomllib.loads(TABLE.read_text(encoding="utf-8"))["rows"]
]


def why_not_built(run: Run, row: StumbleRow, compiler: str) -> str | None:
    """What the build writes to standard error; None if it made the program."""
    program = row.source.rpartition(".")[0] + ".elf"
    more = row.more.replace("LIBGCC", library_of_gcc() if "LIBGCC" in row.more else "")
    if row.link == "sdk":
        shutil.copy(FOLDER / row.source, run.place)
        words = ["make", "-s", "-f", f"{SDK}/Makefile", f"TOOLS={compiler}", f"MORE={more}", program]
    else:
        words = [*COMPILERS[compiler], *FLAGS, *more.split(), *LINKS[row.link], str(FOLDER / row.source), "-o", program]
    done = command(words, run.place)
    return None if done.status == 0 else done.errors


def library_of_gcc() -> str:
    return command([*COMPILERS["gnu"], "-march=rv32im", "-mabi=ilp32", "-print-libgcc-file-name"]).done().strip()


def what_came(run: Run, row: StumbleRow, compiler: str) -> str:
    """The refusal without its first word, or the end and the output of the call, or why there is no program."""
    fault = why_not_built(run, row, compiler)
    if fault is not None:
        name = row.wanted.removeprefix(NOT_LINKED)
        return f"{NOT_LINKED}{name if name in fault else shown(fault)}"
    program = row.source.rpartition(".")[0] + ".elf"
    written(run.place / "one.block", block([program], [GivenCall(data="" if row.data == "-" else row.data)]))
    done = rvstm(run, "seq", "one.block", folder=run.place)
    (run.place / program).unlink()
    return " ".join(*ends(done.out)) if done.status == 0 else done.errors.strip().removeprefix("rvstm: ")


def stumbles(run: Run, rows: Sequence[StumbleRow], compiler: str) -> None:
    """The rows of a source with one compiler."""
    for row in rows:
        what = " ".join(word for word in (row.source, compiler, row.link, row.more, row.data[:8]) if word)
        same(what_came(run, row, compiler), row.wanted, what)


def cases() -> list[Case]:
    found = []
    for source in dict.fromkeys(row.source for row in ROWS):
        for compiler in COMPILERS:
            own = [row for row in ROWS if row.source == source and compiler in row.compilers]
            of_gcc = compiler == "gnu" or any("LIBGCC" in row.more for row in own)
            needs = (*CONTRACTS, Tool.GCC) if of_gcc else CONTRACTS
            run = partial(stumbles, rows=own, compiler=compiler)
            found += [Case(f"stumble {source} by {compiler}", run, needs, cost=0.3 * len(own))] if own else []
    return found
