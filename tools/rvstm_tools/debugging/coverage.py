"""Which lines and branches of a source the calls of contracts ran."""

import itertools
from collections import Counter, defaultdict
from collections.abc import Iterable, Iterator, Sequence
from dataclasses import dataclass, field
from typing import NamedTuple

from rvstm_tools.debugging import sources
from rvstm_tools.debugging.sessions import CallOf, Debugger, place_of
from rvstm_tools.debugging.sources import SourceLine
from rvstm_tools.errors import UserError
from rvstm_tools.programs.elf import ElfFile

LONGEST_ROW = 100  # letters
BRANCH_OPCODE, OPCODE_MASK = 0x63, 0x7F


class Branch(NamedTuple):
    """A conditional branch of the machine: its number among them, and whether it is taken if what it asks holds: equal, less,
    below."""

    number: int
    is_taken_if_true: bool


BRANCHES = {
    "beq": Branch(0, True), "bne": Branch(1, False), "blt": Branch(4, True), "bge": Branch(5, False),
    "bltu": Branch(6, True), "bgeu": Branch(7, False),
}
NAMES = {branch.number: name for name, branch in BRANCHES.items()}


def mnemonic_of(word: int) -> str | None:
    """The name of a conditional branch; None of another word."""
    return NAMES.get(word >> 12 & 7) if word & OPCODE_MASK == BRANCH_OPCODE else None


class Ways(NamedTuple):
    """How often a branch went each way: what it asks held, or did not."""

    true: int
    false: int

    def both(self) -> tuple[int, int]:
        """How often it held, and how often not."""
        return self.true, self.false


class AtBranch(NamedTuple):
    address: int
    mnemonic: str


class Steps:
    """How often calls of a program ran each instruction, and how often each branch went which way."""

    def __init__(self) -> None:
        self.counts = Counter[int]()
        self.taken = Counter[AtBranch]()
        self.passed = Counter[AtBranch]()
        self.total = 0

    def add(self, call: CallOf) -> None:
        with Debugger(call) as session:
            total = session.run_to_end()
        self.total += total
        with Debugger(call) as session:
            branch: AtBranch | None = None
            for line in itertools.chain([session.answer_bytes("w")], session.answers("s", total - 1)):
                _, address, text = place_of(line)
                if branch:
                    (self.passed if address == branch.address + 4 else self.taken)[branch] += 1
                self.counts[address] += 1
                mnemonic = text.split(" ", 1)[0]
                branch = AtBranch(address, mnemonic) if mnemonic in BRANCHES else None

    def ways(self, branch: AtBranch) -> Ways:
        taken, passed = self.taken[branch], self.passed[branch]
        return Ways(taken, passed) if BRANCHES[branch.mnemonic].is_taken_if_true else Ways(passed, taken)


class BranchOfSource(NamedTuple):
    """A branch of a source: its line, its function, and its number among those of a copy of the line."""

    line: int
    function: str
    number: int


@dataclass
class SourceFile:
    lines: Counter[int] = field(default_factory=Counter)
    branches: dict[BranchOfSource, Ways] = field(default_factory=dict)

    def add_branch(self, branch: BranchOfSource, ways: Ways) -> None:
        before = self.branches.get(branch, Ways(0, 0))
        self.branches[branch] = Ways(before.true + ways.true, before.false + ways.false)

    def in_order(self) -> Iterator[tuple[int, Ways]]:
        """Of all branches the line, and how often each way was taken."""
        return ((branch.line, ways) for branch, ways in sorted(self.branches.items()))

    def ran(self) -> set[int]:
        """The numbers of the lines that ran, from 1."""
        return {line for line, count in self.lines.items() if count}

    def ways_taken(self) -> int:
        """How many ways of all branches were taken."""
        return sum(bool(count) for ways in self.branches.values() for count in ways.both())

    def one_way(self) -> set[int]:
        """The lines that ran and have a branch of which a way was not taken."""
        return {branch.line for branch, ways in self.branches.items() if 0 in ways.both()} & self.ran()


Covered = defaultdict[str, SourceFile]  # source files by their paths


class InChain(NamedTuple):
    """A function that is known by its line, in a chain of those that are inlined in one another."""

    function: str
    line: SourceLine


Copy = tuple[InChain, ...]  # a line of a function, in one of the places where that is inlined: what is around it, and itself


def lines_program(path: str, tool: str | None) -> ElfFile:
    """The program with its lines beside another. A UserError if it is missing or of other code, or no tool is there."""
    beside = sources.lines_file_of(path)
    try:
        file = ElfFile(beside)
    except FileNotFoundError as error:
        name = beside.rpartition("/")[2]
        raise UserError(f"there is no {beside}: make -f sdk/Makefile {name} makes it") from error
    if not tool:
        raise UserError(sources.NO_TOOL)
    sources.check_is_of(file, path)
    return file


def add_program(covered: Covered, path: str, steps: Steps) -> None:
    tool = sources.address_tool()
    file = lines_program(path, tool)
    words = file.words()
    chains = sources.chains_of(file, list(words), tool)
    most, numbers = Counter[Copy](), Counter[Copy]()
    for address in sorted(words):
        lines = ((inlined.function, sources.source_line(inlined.line)) for inlined in chains[address])
        chain: Copy = tuple(InChain(function, line) for function, line in lines if line)
        for depth in range(1, len(chain) + 1):
            most[chain[:depth]] = max(most[chain[:depth]], steps.counts[address])
        mnemonic = mnemonic_of(words[address])
        if chain and mnemonic:
            function, line = chain[-1]
            branch = BranchOfSource(line.number, function, numbers[chain])
            covered[line.path].add_branch(branch, steps.ways(AtBranch(address, mnemonic)))
            numbers[chain] += 1
    for copy, count in most.items():
        line = copy[-1].line
        covered[line.path].lines[line.number] += count


# ---- what is printed


def share(part: int, whole: int) -> str:
    return f"{part} of {whole}" + (f", {100 * part / whole:.1f} %" if whole else "")


def rows_of(numbers: Iterable[int]) -> list[str]:
    rows = [""]
    for word in spans_of(sorted(numbers)):
        if len(rows[-1]) + len(word) > LONGEST_ROW:
            rows.append("")
        rows[-1] += (", " if rows[-1] else "") + word
    return rows


def spans_of(numbers: Sequence[int]) -> Iterator[str]:
    """Ascending numbers, those that follow one another as FIRST-LAST."""
    for _, group in itertools.groupby(enumerate(numbers), key=lambda pair: pair[1] - pair[0]):
        span = [number for _, number in group]
        yield f"{span[0]}" if len(span) == 1 else f"{span[0]}-{span[-1]}"


def source_lines(path: str, source: SourceFile) -> Iterator[str]:
    ran = source.ran()
    lines, branches = share(len(ran), len(source.lines)), share(source.ways_taken(), 2 * len(source.branches))
    yield f"{path}: lines {lines}; branches {branches}"
    for name, numbers in {"not run": set(source.lines) - ran, "not both ways": source.one_way()}.items():
        for row in rows_of(numbers) if numbers else []:
            yield f"    {name}: {row}"


def lcov_lines(path: str, source: SourceFile) -> Iterator[str]:
    yield "TN:"
    yield f"SF:{path}"
    number, last = 0, None
    for line, ways in source.in_order():
        number = number + 1 if line == last else 0
        last = line
        for way, count in enumerate(ways.both()):
            yield f"BRDA:{line},{number},{way},{count if any(ways.both()) else '-'}"
    yield f"BRF:{2 * len(source.branches)}"
    yield f"BRH:{source.ways_taken()}"
    for line, count in sorted(source.lines.items()):
        yield f"DA:{line},{count}"
    yield f"LF:{len(source.lines)}"
    yield f"LH:{len(source.ran())}"
    yield "end_of_record"
