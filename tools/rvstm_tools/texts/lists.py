"""Lists: blocks as people write them, a line for each program, key and call (`rvstm-tools block --help`)."""

import os
import re
from collections.abc import Callable, Iterator
from contextlib import contextmanager
from dataclasses import dataclass, field
from pathlib import Path

from rvstm_tools import errors
from rvstm_tools.errors import UserError
from rvstm_tools.texts import blocks, dumps, numbers, words
from rvstm_tools.texts.blocks import Block, Call, ProgramFile, Rules
from rvstm_tools.texts.keys import Key, Storage
from rvstm_tools.texts.views import View

LISTS = ".list"  # how the name of a list ends
PATH = re.compile("[!-~]+")
GAS = re.compile("[1-9][0-9]*")
KINDS = "rules, include, program, shape, store, call, block, expect or storage"
INCLUDED = ("rules", "program", "shape", "store")  # the lines of a file that is included, and `storage DUMP`
STORAGE = (
    "storage: with a path it comes once, before all lines `store` and `call`, and over no other result; without one it comes once, "
    "after the calls"
)


@dataclass(frozen=True)
class Line:
    """A line of a list: the file, its number from 1 on, its words, and its text with what ends it there."""

    path: str
    number: int
    words: list[str]
    text: str = ""

    @property
    def kind(self) -> str:
        return self.words[0] if self.words else ""


@dataclass
class ListFile:
    """What a list says: its blocks one after another, what it says of keys and values, and the texts of its lines."""

    blocks: list[Block]
    view: View = field(default_factory=View)
    lines: list[str] = field(default_factory=list)

    @property
    def calls(self) -> list[Call]:
        """The calls of all blocks. Tools count them so."""
        return [call for block in self.blocks for call in block.calls]

    def place_of(self, number: int) -> tuple[int, int]:
        """The number of the block of a call, and the number of the call there."""
        at = number
        for block_number, block in enumerate(self.blocks):
            if 0 <= at < len(block.calls):
                return block_number, at
            at -= len(block.calls)
        raise UserError(f"there is no call {number}; its {len(self.calls)} calls count from 0")


def is_dump(line: Line) -> bool:
    """Whether a line names the file of the storage before the block."""
    return line.kind == "storage" and len(line.words) > 1


def is_list(path: Path | str) -> bool:
    """Whether a file is a list, by its name. Every other file that may be in its place is a block file."""
    return str(path).endswith(LISTS)


@contextmanager
def named(path: str) -> Iterator[None]:
    """Says of what is wrong within it in which file that is."""
    try:
        yield
    except UserError as error:
        raise UserError(f"{path}: {error}") from error


@contextmanager
def placed(path: str, number: int) -> Iterator[None]:
    """Says of what is wrong within it in which file and line that is."""
    try:
        yield
    except UserError as error:
        raise UserError(f"{path}, line {number}: {error}") from error


def lines_of(path: str) -> Iterator[Line]:
    """The lines of a list. They are read one by one, so that the first wrong line of all is reported."""
    with open(path, encoding="utf-8", errors="surrogateescape", newline="") as file:
        for number, text in enumerate(file, 1):
            with placed(path, number):
                check_encoding(text)
                yield Line(path, number, words.words_of(text), text)


def take_included(line: Line, take: Callable[[Line], None]) -> None:
    """Takes the lines of the file that a line `include` names, as if they were in its place. Their paths start from that file's folder,
    and are handed on as those from the folder of the line."""
    if len(line.words) != 2:
        raise UserError("include: the path of a file follows it")
    name = words.name_of(line.words[1])
    path = os.path.join(os.path.dirname(line.path), name)
    for other in filter(lambda other: other.words, lines_of(path)):
        with placed(path, other.number):
            if other.kind not in INCLUDED and not is_dump(other):
                raise UserError(f"{other.kind}: a file that is included has only lines {', '.join(INCLUDED)} and storage DUMP")
            *first, last = other.words
            if other.kind in ("program", "storage"):
                last = os.path.normpath(os.path.join(os.path.dirname(name), last))
            take(Line(line.path, line.number, [*first, last], other.text.strip()))


def check_encoding(text: str) -> None:
    try:
        text.encode()
    except UnicodeEncodeError as error:
        raise UserError("not UTF-8") from error


class BlockReader:
    """Takes the lines of a list in turn, and makes their blocks, over a storage. It passes over lines of a test."""

    def __init__(self, storage: Storage) -> None:
        self.file = ListFile([Block(storage)])
        self.view = self.file.view
        self._stored: set[Key] = set()
        self._is_begun = False
        self._has_rules = False
        self._is_after_storage = False
        self._takers: dict[str, Callable[[list[str], int], None]] = {
            "rules": self._take_rules,
            "program": self._take_program,
            "store": self._take_key,
            "call": self._take_call,
            "block": self._take_next_block,
            "shape": lambda given, _: self.view.take_shape(given),
        }

    @property
    def block(self) -> Block:
        return self.file.blocks[-1]

    def take(self, line: Line) -> None:
        self.file.lines.append(line.text)
        if line.kind == "include":
            take_included(line, self._take)
        else:
            self._take(line)

    def _take(self, line: Line) -> None:
        if line.kind != "shape":
            self.view.take_names(line.words)
        if is_dump(line):
            self._take_dump(line)
        elif line.kind == "storage":
            self._is_after_storage = True
        elif line.words and line.kind != "expect":
            self._take_block_line(line)

    def _take_dump(self, line: Line) -> None:
        """Takes the storage of a file for that before the block, and its rules if the list names none."""
        if len(line.words) > 2 or self.block.storage or self.file.calls or len(self.file.blocks) > 1 or self._is_after_storage:
            raise UserError(STORAGE)
        dump = dumps.read_dump(os.path.join(os.path.dirname(line.path), words.name_of(line.words[1])))
        if dump.rules and not self._has_rules:
            self.block.rules = dump.rules
        rules = self.block.rules
        if dump.rules and dump.rules > rules:
            raise UserError(f"{line.words[1]}: the dump is of rules {dump.rules}, and the list has rules {rules}")
        self.block.storage.update(dump.storage)
        if self.block.longest_value() > rules.longest_value:
            raise UserError(f"{line.words[1]}: a value has {self.block.longest_value()} bytes, which rules {rules} do not allow")
        self._is_begun = True

    def _take_block_line(self, line: Line) -> None:
        if self._is_after_storage:
            raise UserError(f"{line.kind}: only lines `expect` may follow `storage`")
        if line.kind not in self._takers:
            raise UserError(f"{line.kind}: not {KINDS}")
        self._takers[line.kind](line.words[1:], line.number)
        self._is_begun = True

    def _take_rules(self, given: list[str], _: int) -> None:
        if given not in (["1"], ["2"], ["3"]) or self._is_begun:
            raise UserError("rules: the line is `rules 1`, `rules 2` or `rules 3`, and comes before all others")
        self.block.rules = Rules(int(given[0]))
        self._has_rules = True

    def _take_program(self, given: list[str], line: int) -> None:
        if len(given) != 2:
            raise UserError("program: a name and a path follow it")
        name, path = map(words.name_of, given)
        if name in self.block.programs:
            raise UserError(f"{name}: another program line has this name")
        if not PATH.fullmatch(path):
            raise UserError(f"{path}: a path has the printable bytes of ASCII alone")
        if len(self.block.programs) == blocks.MOST_PROGRAMS:
            raise UserError(f"{name}: a block has at most {blocks.MOST_PROGRAMS} programs")
        self.block.programs[name] = ProgramFile(path, line)

    def _take_key(self, given: list[str], _: int) -> None:
        if not given:
            raise UserError("store: a key and its value follow it")
        if self.block.calls:
            raise UserError("store: a call is above it; a line `block` begins the next block, and store lines come before its calls")
        key = words.key_of(given[0])
        if key in self._stored:
            raise UserError(f"{given[0]}: another store line of the block has this key")
        self._stored.add(key)
        rules = self.block.rules
        self.block.storage[key] = words.joined(given[1:], rules.longest_value, f"a value under rules {rules}")

    def _take_next_block(self, given: list[str], _: int) -> None:
        if given:
            raise UserError("block: nothing follows it; it begins the next block")
        self.file.blocks.append(Block({}, self.block.rules, self.block.programs))
        self._stored = set()

    def _take_call(self, given: list[str], line: int) -> None:
        if len(given) < 2:
            raise UserError("call: a program's name, the gas and the input follow it")
        name, gas_word, *data = given
        gas = self.gas_of(name, gas_word)
        if len(self.block.calls) == blocks.MOST_CALLS:
            raise UserError(f"{name}: a block has at most {blocks.MOST_CALLS} calls")
        self.block.calls.append(Call(name, gas, words.joined(data, blocks.LONGEST_INPUT, "an input"), line))

    def gas_of(self, name: str, word: str) -> int:
        if name not in self.block.programs:
            raise UserError(f"{name}: no program line above has this name")
        return gas_of(word)


def gas_of(word: str) -> int:
    """The gas of a call, without zeros before it."""
    gas = numbers.at_most(word, blocks.MOST_GAS) if GAS.fullmatch(word) else None
    if gas is None:
        raise UserError(f"{word}: gas is a number of 1 to {blocks.MOST_GAS}")
    return gas


def read_list(path: str, storage: Storage | None = None) -> ListFile:
    """A list, over a storage if one is given."""
    reader = BlockReader(storage or {})
    hand_on(path, reader.take, reader.view)
    return reader.file


def hand_on(path: str, take: Callable[[Line], None], view: View) -> None:
    """Hands the lines of a list to what fills a view. Words of another key than the list's shapes are warnings."""
    for line in lines_of(path):
        with placed(path, line.number):
            take(line)
    errors.warn(path, view.doubts(view.names.values()))
