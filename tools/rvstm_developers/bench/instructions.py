import argparse
import re
from collections.abc import Iterator, Sequence
from dataclasses import dataclass
from pathlib import Path

from rvstm_developers import options, running, texts
from rvstm_developers.bench import blocks, tables
from rvstm_developers.bench.blocks import FOLDER, RULES, SPEED_PROGRAMS, TimedBlock, TimedCall
from rvstm_developers.running import Word
from rvstm_tools.errors import UserError
from rvstm_tools.options import Command

GAS = (1_000_000, 3_000_000)
CALLS = (200, 600)
WORDS_A_PAGE = 1024
TABLES: dict[str, list[str]] = {"plainvm.c, gcc -O2": [], "plainvm.c, gcc -O2 -fno-jump-tables": ["-fno-jump-tables"]}
WAYS = (("seq",), ("run", "--workers", "1"))


@dataclass(frozen=True)
class CountedProgram:
    name: str
    path: str
    data: bytes = b""


def counted(words: Sequence[Word], folder: Path, place: Path, data: bytes = b"") -> int:
    output = place / "callgrind.out"
    running.output_of(["valgrind", "--tool=callgrind", f"--callgrind-out-file={output}", *words], folder, data)
    found = re.search(r"^summary: (\d+)", output.read_text(encoding="utf-8"), re.MULTILINE)
    if not found:
        raise UserError("callgrind counted nothing")
    return int(found[1])


def last_moment(rvstm: Path, block: Path) -> int:
    text = running.output_of([rvstm, "debug", block, "--call", "0"], FOLDER, b"g 00000000\n")
    return int(text.split(b" ", 1)[0])


def programs_of(rvstm: Path, place: Path) -> Iterator[CountedProgram]:
    """The programs; the last one has two pages, each of which jumps to the other at once."""
    for number, name in enumerate(SPEED_PROGRAMS):
        yield CountedProgram(name, f"programs/{name}.elf", blocks.speed_calls(number)[0].data)
    page = [".word 0"] * (WORDS_A_PAGE - 1)
    source = "\n".join(["here: j there", *page, "there: j here", ""])
    yield CountedProgram("two pages", str(running.assembled(rvstm, source, place / "jumping.elf")))


def print_loops(rvstm: Path, place: Path) -> None:
    machines: dict[str, list[Word]] = {"rvstm seq": [rvstm, "seq"]}
    for name, words in TABLES.items():
        path = place / f"plain{''.join(words)}"
        running.output_of(["gcc", "-O2", *words, "-w", "-o", path, FOLDER / "plainvm.c"])
        machines[name] = [path]
    cells: dict[str, list[str]] = {name: [name] for name in machines}
    programs = list(programs_of(rvstm, place))
    for program in programs:
        paths = [place / f"{gas}.block" for gas in GAS]
        for gas, path in zip(GAS, paths):
            path.write_text(TimedBlock(program.name, "", [TimedCall(gas, program.data)]).text(program.path), encoding="utf-8")
        few, many = (last_moment(rvstm, path) for path in paths)
        for name, start in machines.items():
            low, high = (counted([*start, path], FOLDER, place) for path in paths)
            cells[name].append(f"{(high - low) / (many - few):.1f}")
    tables.print_table(["", *(program.name for program in programs)], cells.values())


def print_calls(rvstm: Path, place: Path) -> None:
    print()
    tables.print_head(["a call of the whole program", "`seq`", "`run`, one worker", "`run` / `seq`"])
    for block in (blocks.transfers(), blocks.hot_key(), blocks.hot_sum(), blocks.chain()):
        blocks.assemble(rvstm, place, block.source)
        for rules in range(RULES.get(block.source, 1), 4):
            for count in CALLS:
                (place / f"{count}.block").write_text(block.first(count).text(rules=rules), encoding="utf-8")
            costs = []
            for command, *more in WAYS:
                low, high = (counted([rvstm, command, f"{count}.block", *more], place, place) for count in CALLS)
                costs.append((high - low) / (CALLS[1] - CALLS[0]))
            seq, one = costs
            tables.print_row([f"{block.name}, rules {rules}", f"{seq:,.0f}", f"{one:,.0f}", f"{one / seq:.2f}"])


def run(given: argparse.Namespace) -> int:
    with texts.new_folder() as place:
        print_loops(given.rvstm, place)
        print_calls(given.rvstm, place)
    return 0


COMMAND = Command(
    "Counts the instructions of the processor with callgrind, and prints two tables. The counts do not vary from run to run.",
    "crates/rvstm/out/rvstm",
    run,
    (options.RVSTM,),
)
