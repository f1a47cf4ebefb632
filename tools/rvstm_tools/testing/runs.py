"""Runs of tests: the blocks of a list by some programs, and which of its expectations are not met."""

import functools
import itertools
from collections.abc import Callable, Iterable, Iterator, Mapping, Sequence
from dataclasses import dataclass
from functools import cached_property
from typing import TypeVar

from rvstm_tools.errors import UserError
from rvstm_tools.programs import running
from rvstm_tools.programs.running import InTurn, Program, Runner
from rvstm_tools.testing import causes
from rvstm_tools.testing.listed import CallPart, ListedTest, StoragePart
from rvstm_tools.texts.blocks import ProgramFile
from rvstm_tools.texts.differences import Difference
from rvstm_tools.texts.expectations import Expectation, LineDifference, Scene
from rvstm_tools.texts.keys import Storage
from rvstm_tools.texts.results import End, Receipt

NO_LINE = "no line"

Subject = TypeVar("Subject")


@dataclass(frozen=True)
class Miss:
    """A line that is not met: the part of the test that it is of, its number, and how what came differs."""

    part: CallPart | StoragePart
    line: int
    difference: Difference


Part = CallPart | StoragePart


def misses_of(
    test: ListedTest, receipts: Sequence[Receipt], storage: Callable[[], Storage], difference: Callable[[Part, int], LineDifference | None],
) -> Iterator[Miss]:
    """The lines of a test that are not met by some receipts, and by the storage after them."""

    def of(part: Part, expectations: Mapping[int, Expectation[Subject]], subject: Subject) -> Iterator[Miss]:
        scene = Scene(part.keys(), test.file.view, functools.partial(difference, part))
        for line, expectation in expectations.items():
            if missed := expectation.miss(subject, scene):
                yield Miss(part, line, missed)

    for part in test.calls:
        yield from of(part, part.expectations, receipts[part.call])
    if test.storage:
        yield from of(test.storage, test.storage.expectations, storage())


class Run:
    def __init__(self, runner: Runner, test: ListedTest, programs: Sequence[ProgramFile]) -> None:
        self.runner = runner
        self.test = test
        self.programs = programs
        self.folder = test.path.parent
        paths = [program.path for program in programs]
        missing = next((path for path in paths if not (self.folder / path).is_file()), None)
        self.blocks = [] if missing else list(running.in_turn(runner, test.file.blocks, self.folder, paths))
        refusal = "no such file" if missing else self.blocks[-1].printed.refusal
        self.refusal = self._placed(refusal, missing) if refusal else ""
        """Why a block did not run, with the program that is at fault; empty if all ran."""

    @cached_property
    def receipts(self) -> list[Receipt]:
        """What came of the calls. No block was refused."""
        for block, run in zip(self.test.file.blocks, self.blocks, strict=True):
            wanted, came = len(block.calls), len(run.result.receipts)
            if came != wanted:
                raise UserError(f"{self.test.path}: the result has {came} calls, and the block {wanted}: the program is not rvstm")
        return [receipt for run in self.blocks for receipt in run.result.receipts]

    def misses(self) -> list[Miss]:
        return list(misses_of(self.test, self.receipts, lambda: self.blocks[-1].result.storage, self._difference_at))

    def gas(self) -> dict[int, int]:
        """For each line `gas at most`, what gas its call cost."""
        return {number: self.receipts[part.call].gas for part in self.test.calls for number in part.gas_lines()}

    def ends(self, misses: Iterable[Miss]) -> dict[int, str]:
        """How the calls ended whose lines are not met."""
        numbers = dict.fromkeys(miss.part.call for miss in misses if isinstance(miss.part, CallPart))
        return {number: self._end_of(number) for number in numbers}

    def _end_of(self, number: int) -> str:
        at, in_block = self.test.file.place_of(number)
        block, receipt = self.test.file.blocks[at], self.receipts[number]
        if receipt.end is End.RETURNED:
            return f"returned, gas {receipt.gas}"
        place, size = f"{receipt.pc:08x}", causes.size_of(receipt, block.rules)
        if isinstance(self.runner, Program):
            path = dict(zip(block.programs, self.programs, strict=True))[block.calls[in_block].program].path
            place = causes.place_of(self.runner.path, self.blocks[at], in_block, self.folder, path) or place
        return f"{receipt.end} at {place}, gas {receipt.gas}{size and ': '}{size}"

    def _difference_at(self, part: Part, workers: int) -> LineDifference | None:
        return self.difference([self.blocks[self.test.file.place_of(part.call)[0]]] if isinstance(part, CallPart) else self.blocks, workers)

    def difference(self, blocks: Sequence[InTurn], workers: int) -> LineDifference | None:
        """The first line of the blocks in order that a run by workers lacks, and what it has there; or None."""
        for block in blocks:
            other = running.run_block(self.runner, "run", block.text, self.folder, "--workers", str(workers))
            lines = [other.refusal] if other.refusal else other.text.splitlines()
            pairs = itertools.zip_longest(block.printed.text.splitlines(), lines, fillvalue=NO_LINE)
            found = next(((wanted, came) for wanted, came in pairs if wanted != came), None)
            if found:
                return found
        return None

    def _placed(self, refusal: str, missing: str | None) -> str:
        """A refusal with the list, and the line and the path of the program that it is for."""
        paths = [program.path for program in self.programs]
        path = missing or running.refused_path(self.runner, paths, refusal, self.folder)
        places = [f", line {program.line}, {path}" for program in self.programs if program.path == path]
        block = f", block {len(self.blocks) - 1}" if len(self.blocks) > 1 else ""
        return f"{self.test.path}{block}{places[0] if places else ''}: {refusal}"
