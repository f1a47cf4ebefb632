"""Blocks: what they consist of, and their text as rvstm reads it (docs/formats.md, "Block file")."""

import enum
from collections.abc import Iterable, Sequence
from dataclasses import dataclass, field
from typing import NamedTuple

from rvstm_tools.texts.keys import Storage

LONGEST_INPUT = 4096
MOST_GAS = 10_000_000
MOST_PROGRAMS = 64
MOST_CALLS = 1024
MOST_KEYS = 256  # that a call changes


class Rules(enum.IntEnum):
    ONE = 1
    TWO = 2
    THREE = 3

    @property
    def longest_value(self) -> int:
        """In bytes."""
        return 64 if self is Rules.ONE else 256

    @property
    def head(self) -> str:
        """What a block file of these rules begins with, in the first format that has them."""
        return "rvblock 1\n" if self is Rules.ONE else f"rvblock 2\ngas {self.value}\n"


@dataclass(frozen=True)
class ProgramFile:
    path: str
    line: int


@dataclass(frozen=True)
class Call:
    """A call of a list: the name of its program, the most gas, the input, and the number of its line."""

    program: str
    gas: int
    data: bytes
    line: int


class CallLine(NamedTuple):
    program: int
    gas: int
    data: bytes


@dataclass
class Block:
    """A block. Its storage is put over what the blocks of the list before it left."""

    storage: Storage = field(default_factory=dict)
    rules: Rules = Rules.ONE
    programs: dict[str, ProgramFile] = field(default_factory=dict)  # by their names, in the order of the list
    calls: list[Call] = field(default_factory=list)

    def paths(self) -> list[str]:
        return [program.path for program in self.programs.values()]

    def longest_value(self) -> int:
        """The length of the longest value of the storage; 0 if there is none."""
        return max(map(len, self.storage.values()), default=0)

    def text(self, paths: Sequence[str] | None = None, before: Storage | None = None) -> str:
        """The block file, with other paths of the programs if some are given, and over a storage."""
        numbers = {name: number for number, name in enumerate(self.programs)}
        calls = [CallLine(numbers[call.program], call.gas, call.data) for call in self.calls]
        return text(self.paths() if paths is None else paths, (before or {}) | self.storage, calls, self.rules)


def field_of(data: bytes) -> str:
    """A field of bytes, as block files and results have it."""
    return data.hex() or "-"


def store_lines(storage: Storage) -> list[str]:
    """A line for each key and its value, in the order of the keys."""
    return [f"store {key.hex()} {field_of(value)}\n" for key, value in sorted(storage.items())]


def text(paths: Iterable[str], storage: Storage | None = None, calls: Iterable[CallLine] = (), rules: Rules = Rules.ONE) -> str:
    lines = [f"program {number} {path}\n" for number, path in enumerate(paths)]
    lines += store_lines(storage or {})
    lines += [f"call {call.program} {call.gas} {field_of(call.data)}\n" for call in calls]
    return rules.head + "".join(lines)
