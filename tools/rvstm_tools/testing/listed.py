"""Tests as lists say them: a block, and what is expected of each call and of the storage after the block."""

from dataclasses import dataclass, field, replace
from pathlib import Path

from rvstm_tools.errors import UserError
from rvstm_tools.texts import differences, expectations, lists
from rvstm_tools.texts.blocks import ProgramFile
from rvstm_tools.texts.expectations import CallExpectation, Changes, CostsAtMost, Holds, StorageExpectation
from rvstm_tools.texts.keys import Key
from rvstm_tools.texts.lists import BlockReader, Line, ListFile


@dataclass
class CallPart:
    """The lines `expect` after a call, by their numbers."""

    call: int  # its number in the list
    expectations: dict[int, CallExpectation] = field(default_factory=dict)

    def keys(self) -> frozenset[Key]:
        return frozenset(line.key for line in self.expectations.values() if isinstance(line, Changes))

    def gas_lines(self) -> list[int]:
        """The numbers of the lines `gas at most` in the list."""
        return [number for number, line in self.expectations.items() if isinstance(line, CostsAtMost)]


@dataclass
class StoragePart:
    """The lines `expect` after `storage`, by their numbers."""

    expectations: dict[int, StorageExpectation] = field(default_factory=dict)

    def keys(self) -> frozenset[Key]:
        return frozenset(line.key for line in self.expectations.values() if isinstance(line, Holds))


@dataclass
class ListedTest:
    path: Path
    file: ListFile
    calls: list[CallPart]
    storage: StoragePart | None

    def count(self) -> int:
        """How many lines `expect` there are."""
        after_calls = sum(len(part.expectations) for part in self.calls)
        return after_calls + (len(self.storage.expectations) if self.storage else 0)

    def shown_line(self, number: int) -> str:
        return differences.cut(self.file.lines[number - 1].strip())

    def programs_by(self, variant: str) -> list[ProgramFile]:
        """The programs of the list, each PROGRAM.elf replaced by PROGRAM-VARIANT.elf if there is such a file."""
        return [self._program_by(variant, program) for program in self.file.blocks[0].programs.values()]

    def has(self, variant: str) -> bool:
        """Whether a program has this variant."""
        return self.programs_by(variant) != self.programs_by("")

    def _program_by(self, variant: str, program: ProgramFile) -> ProgramFile:
        other = f"{program.path.removesuffix('.elf')}-{variant}.elf"
        is_there = variant and (self.path.parent / other).is_file()
        return replace(program, path=other) if is_there else program


class ListedTestReader:
    """Takes the lines of a list one after another, and makes the test that they say."""

    def __init__(self) -> None:
        self.blocks = BlockReader({})
        self.calls: list[CallPart] = []
        self.storage: StoragePart | None = None

    def take(self, line: Line) -> None:
        if line.kind == "storage" and not lists.is_dump(line):
            self._take_storage()
        elif line.kind == "expect":
            self._take_expectation(line)
        self.blocks.take(line)

    def _take_storage(self) -> None:
        if self.storage is not None:
            raise UserError(lists.STORAGE)
        self.storage = StoragePart()

    def _take_expectation(self, line: Line) -> None:
        given = line.words[1:]
        if self.storage is not None:
            self.storage.expectations[line.number] = expectations.of_storage(given)
        else:
            part = self._part_of_last_call()
            part.expectations[line.number] = expectations.of_call(given)

    def _part_of_last_call(self) -> CallPart:
        last = len(self.blocks.file.calls) - 1
        if last < 0:
            raise UserError("expect: no call is above it")
        if not self.calls or self.calls[-1].call != last:
            self.calls.append(CallPart(last))
        return self.calls[-1]


def read_test(path: Path) -> ListedTest:
    reader = ListedTestReader()
    lists.hand_on(str(path), reader.take, reader.blocks.view)
    return ListedTest(path, reader.blocks.file, reader.calls, reader.storage)
