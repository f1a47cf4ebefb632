"""Results as rvstm prints them: how calls ended, what they changed, and the storage (docs/formats.md, "Result")."""

import enum
import re
from collections.abc import Iterable, Iterator
from dataclasses import dataclass, field
from typing import NamedTuple

from rvstm_tools.errors import UserError
from rvstm_tools.texts.keys import Key, Storage

BYTES = "(-|(?:[0-9a-f]{2})+)"
NUMBER = "([0-9]{1,10})"
AMOUNT = "([0-9]{1,20})"
LINES = {
    "call": re.compile(f"call {NUMBER} ([a-z-]+) gas {NUMBER} pc ([0-9a-f]{{8}}) out {BYTES}\n"),
    "regs": re.compile("regs((?: [0-9a-f]{8}){32})\n"),
    "write": re.compile(f"write {NUMBER} ([0-9a-f]{{64}}) (?:(gone)|add {AMOUNT}|{BYTES})\n"),
    "store": re.compile(f"store ([0-9a-f]{{64}}) {BYTES}\n"),
    "end": re.compile("end\n"),
}
SHOWN_OF_WRONG_LINE = 60  # letters


class End(enum.StrEnum):
    RETURNED = "returned"
    REVERTED = "reverted"
    OUT_OF_GAS = "out-of-gas"
    ILLEGAL = "illegal"
    MISALIGNED = "misaligned"
    MEMORY_FAULT = "memory-fault"
    FETCH_FAULT = "fetch-fault"
    BREAKPOINT = "breakpoint"
    UNKNOWN_CALL = "unknown-call"
    BAD_LENGTH = "bad-length"
    TOO_MANY_WRITES = "too-many-writes"


ENDS_WITH_OUTPUT = (End.RETURNED, End.REVERTED)
TRAPS = tuple(end for end in End if end not in (*ENDS_WITH_OUTPUT, End.OUT_OF_GAS))


@dataclass(frozen=True)
class Written:
    """A key has this value now."""

    value: bytes


@dataclass(frozen=True)
class Removed:
    """A key has no value any more."""


@dataclass(frozen=True)
class Added:
    """So much was added in all to a key that was neither written nor removed."""

    amount: int


Change = Written | Removed | Added


@dataclass
class Receipt:
    number: int
    end: End
    gas: int
    pc: int
    output: bytes
    registers: tuple[int, ...] = ()
    changes: dict[Key, Change] = field(default_factory=dict)


class Stored(NamedTuple):
    key: Key
    value: bytes


@dataclass
class Result:
    receipts: list[Receipt] = field(default_factory=list)
    storage: Storage = field(default_factory=dict)


class ResultLine(NamedTuple):
    number: int
    kind: str
    fields: re.Match[str]


def bytes_of(text: str) -> bytes:
    """Bytes in hex; `-` for none."""
    return b"" if text == "-" else bytes.fromhex(text)


def key_of(text: str) -> Key:
    return Key(bytes.fromhex(text))


def wrong(number: int, text: str) -> UserError:
    return UserError(f"line {number} of the result is cut, or not one of a result: {text.strip()[:SHOWN_OF_WRONG_LINE]}")


def line_of(number: int, text: str) -> ResultLine:
    kind = text.split(None, 1)[0] if text.strip() else ""
    fields = LINES[kind].fullmatch(text) if kind in LINES else None
    if fields is None:
        raise wrong(number, text)
    return ResultLine(number, kind, fields)


def lines_of(texts: Iterable[str]) -> Iterator[ResultLine]:
    """The lines of a whole result. Each is handed out before the next is read; the end is checked last."""
    kind = ""
    for number, text in enumerate(texts, 1):
        line = line_of(number, text)
        kind = line.kind
        yield line
    if not kind:
        raise UserError("nothing was read: rvstm was refused or did not run, and its own line says why")
    if kind != "end":
        raise UserError("the last line is not `end`, so it is no whole result")


def receipt_of(line: ResultLine) -> Receipt:
    number, end, gas, pc, output = line.fields.groups()
    try:
        return Receipt(int(number), End(end), int(gas), int(pc, 16), bytes_of(output))
    except ValueError as error:
        raise wrong(line.number, line.fields[0]) from error


def change_of(line: ResultLine) -> Change:
    _, _, gone, amount, value = line.fields.groups()
    if gone:
        return Removed()
    return Written(bytes_of(value)) if amount is None else Added(int(amount))


def items_of(texts: Iterable[str]) -> Iterator[Receipt | Stored]:
    """The receipts of a whole result and then its storage, each as soon as its last line is read."""
    receipt: Receipt | None = None
    for line in lines_of(texts):
        if line.kind in ("regs", "write"):
            if receipt is None:
                raise wrong(line.number, line.fields[0])
            take_more(receipt, line)
            continue
        if receipt:
            yield receipt
            receipt = None
        if line.kind == "call":
            receipt = receipt_of(line)
        elif line.kind == "store":
            yield Stored(key_of(line.fields[1]), bytes_of(line.fields[2]))


def take_more(receipt: Receipt, line: ResultLine) -> None:
    """Takes a line `regs` or `write` into the receipt that it follows."""
    if line.kind == "regs":
        receipt.registers = tuple(int(word, 16) for word in line.fields[1].split())
    else:
        receipt.changes[key_of(line.fields[2])] = change_of(line)


def result_of(text: str) -> Result:
    result = Result()
    for item in items_of(text.splitlines(keepends=True)):
        if isinstance(item, Receipt):
            result.receipts.append(item)
        else:
            result.storage[item.key] = item.value
    return result


def read_storage(path: str) -> Storage:
    """The storage that the result in a file ends with. Its other lines are read, and not kept."""
    with open(path, encoding="ascii", errors="backslashreplace") as file:
        try:
            lines = (line for line in lines_of(file) if line.kind == "store")
            return {key_of(line.fields[1]): bytes_of(line.fields[2]) for line in lines}
        except UserError as error:
            raise UserError(f"{path}: {error}") from error
