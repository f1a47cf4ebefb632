"""Calls and blocks in Python, by the rules alone and without rvstm: programs of a few instructions, their files, and what
`rvstm seq` and `rvstm conflicts` have to print of blocks of them."""

import math
import re
from collections.abc import Iterable, Mapping, Sequence
from typing import NamedTuple, Self

from rvstm_developers import texts
from rvstm_developers import machine_code as code
from rvstm_developers.machine_code import EXECUTE, PAGE, READ, WRITE, ElfPart, elf_of
from rvstm_developers.models import waits
from rvstm_developers.texts import word
from rvstm_tools.debugging import charges
from rvstm_tools.debugging.charges import StorageCall
from rvstm_tools.exploring.storages import changed_value
from rvstm_tools.texts import blocks
from rvstm_tools.texts.blocks import CallLine, Rules
from rvstm_tools.texts.keys import KEY_LENGTH, Key, Storage
from rvstm_tools.texts.results import Added, Change, End, Receipt, Removed, Written
from rvstm_tools.texts.tables import REGISTERS as NAMES

TEXT, DATA, INPUT, MEMORY_END = 0x10000, 0x20000, 0x100000, 0x110000
ABSENT, LONGER = 2**32 - 1, 2**32 - 2
MOST_WRITES, LONGEST_OUTPUT = 256, 256
REGISTERS = {name: number for number, name in enumerate(NAMES)}
SP, A0, A1, A2, A7 = (REGISTERS[name] for name in ("sp", "a0", "a1", "a2", "a7"))
BRANCHES = ("beq", "bne")


# ---- programs: the lines of a source, and the words and the file that they are


class Instruction(NamedTuple):
    """An instruction: its name, and its operands as registers and numbers, in the order of its text."""

    name: str
    first: int = 0
    second: int = 0
    third: int = 0


def number_of(text: str, labels: Mapping[str, int], here: int) -> int:
    """An operand: a register, a label as the distance to it, or a number."""
    if text in REGISTERS:
        return REGISTERS[text]
    return labels[text] - here if text in labels else int(text, 0)


def instructions_of(source: Sequence[str]) -> list[Instruction]:
    """The instructions of a source; an `li` is two of them."""
    rows: list[Sequence[str]] = []
    labels: dict[str, int] = {}
    for line in source:
        if line.endswith(":"):
            labels[line[:-1]] = 4 * len(rows)
            continue
        name, *operands = re.split(r"[ ,()]+", line.strip(")"))
        rows += [("lui", *operands), ("addi", operands[0], *operands)] if name == "li" else [(name, *operands)]
    return [made(row, labels, 4 * place) for place, row in enumerate(rows)]


def made(row: Sequence[str], labels: Mapping[str, int], here: int) -> Instruction:
    """An instruction of its words; of an `li` the part that it is."""
    name, *operands = row
    if len(operands) == 2 and name == "lui":
        return Instruction(name, REGISTERS[operands[0]], (int(operands[1], 0) + 0x800 >> 12) & 0xFFFFF)
    numbers = [number_of(text, labels, here) for text in operands]
    if name == "addi" and operands[0] == operands[1] and not -0x800 <= numbers[2] < 0x800:
        numbers[2] = (numbers[2] + 0x800) % 0x1000 - 0x800
    return Instruction(name, *numbers)


def encoded(row: Instruction) -> int:
    name, first, second, third = row
    match name:
        case "ecall":
            return code.ECALL
        case "lui":
            return code.lui(first, second)
        case "addi":
            return code.immediate(name, first, second, third)
        case "add":
            return code.computed(name, first, second, third)
        case "lw":
            return code.loaded(name, first, third, second)
        case "sw":
            return code.stored(name, first, third, second)
    return code.branch(name, first, second, third)


class MachineProgram:
    def __init__(self, source: Sequence[str], data: bytes = b"") -> None:
        self.source, self.data = source, data
        self.code = instructions_of(source)
        self.text = b"".join(word(encoded(row)) for row in self.code)
        segments = [ElfPart(TEXT, self.text, READ | EXECUTE)] + [ElfPart(DATA, data, READ | WRITE)] * bool(data)
        self.file = elf_of(*segments)
        assert len(self.text) <= PAGE


# ---- one call


class MachineCall:
    """A call that runs over a storage, which it does not change. It counts its steps, and keeps the keys of reads."""

    def __init__(self, program: MachineProgram, rules: int, store: Storage, limit: int, data: bytes) -> None:
        self.program, self.rules, self.store, self.left, self.limit = program, rules, store, limit, limit
        self.pc, self.steps, self.output = TEXT, 0, b""
        self.end: End | None = None
        self.registers = [0] * 32
        self.registers[SP], self.registers[A0], self.registers[A1] = MEMORY_END, INPUT, len(data)
        self.memory = bytearray(MEMORY_END - TEXT)
        for address, content in ((TEXT, program.text), (DATA, program.data), (INPUT, data)):
            self.memory[address - TEXT : address - TEXT + len(content)] = content
        self.changes: dict[Key, Change] = {}
        self.keys: list[Key] = []

    def until(self, steps: float) -> Self:
        while self.end is None and self.steps < steps:
            self.step(self.program.code[(self.pc - TEXT) // 4])
            self.steps += 1
        return self

    def step(self, row: Instruction) -> None:
        name, first, second, third = row
        registers = self.registers
        if name == "ecall":
            return self.storage_call()
        if not self.charge(charges.of_instruction(name)):
            return
        after = self.pc + 4
        if name == "addi":
            registers[first] = (registers[second] + third) % 2**32
        elif name in BRANCHES:
            if (registers[first] != registers[second]) == (name == "bne"):
                after = self.pc + third
        elif name == "add":
            registers[first] = (registers[second] + registers[third]) % 2**32
        elif name == "lui":
            registers[first] = second << 12
        elif not self.access(row, (registers[third] + second) % 2**32):
            return self.ends(End.MEMORY_FAULT)
        registers[0] = 0
        self.pc = after

    def access(self, row: Instruction, address: int) -> bool:
        """Loads or stores a word. Returns whether that is allowed."""
        assert address % 4 == 0
        if not self.may(address, 4, is_written=row.name == "sw"):
            return False
        place = address - TEXT
        if row.name == "sw":
            self.memory[place : place + 4] = word(self.registers[row.first])
        else:
            self.registers[row.first] = int.from_bytes(self.memory[place : place + 4], "little")
        return True

    def may(self, address: int, length: int, is_written: bool = False) -> bool:
        """Whether bytes may be read or written: the page of text may not be written."""
        first = TEXT + PAGE if is_written else TEXT
        return length == 0 or (first <= address and address + length <= MEMORY_END)

    def ends(self, end: End) -> None:
        self.end = end

    def charge(self, gas: int) -> bool:
        """Charges gas. Returns whether there was enough; otherwise the call ends."""
        if self.left < gas:
            self.left = 0
            self.ends(End.OUT_OF_GAS)
            return False
        self.left -= gas
        return True

    def storage_call(self) -> None:
        """An ECALL: number, length, gas, rights, and how many keys are written, in this order."""
        number, (at, second, third) = self.registers[A7], self.registers[A0 : A2 + 1]
        ending = number in (StorageCall.RETURN, StorageCall.REVERT)
        length = second if ending else third if number in (StorageCall.READ, StorageCall.WRITE) else 0
        if number > StorageCall.ADD or (number == StorageCall.ADD and self.rules < 3):
            return self.ends(End.UNKNOWN_CALL)
        if length > (LONGEST_OUTPUT if ending else Rules(self.rules).longest_value):
            return self.ends(End.BAD_LENGTH)
        if not self.charge(charges.of_storage_call(number, length, 0, self.rules)):
            return
        ranges: dict[int, bool] = {StorageCall.READ: self.may(second, length, is_written=True), StorageCall.WRITE: self.may(second, length)}
        if not self.may(at, length if ending else KEY_LENGTH) or not ranges.get(number, True):
            return self.ends(End.MEMORY_FAULT)
        if ending:
            self.output = self.bytes(at, length)
            return self.ends(End.RETURNED if number == StorageCall.RETURN else End.REVERTED)
        self.touch(number, Key(self.bytes(at, KEY_LENGTH)), second, third)

    def touch(self, number: int, key: Key, second: int, length: int) -> None:
        if number == StorageCall.READ:
            if not self.read(key, second, length):
                return
        elif key not in self.changes and len(self.changes) == MOST_WRITES:
            return self.ends(End.TOO_MANY_WRITES)
        elif number == StorageCall.ADD:
            self.changes[key] = self.added(self.changes.get(key), second + (length << 32))
        else:
            self.changes[key] = Written(self.bytes(second, length)) if number == StorageCall.WRITE else Removed()
        self.pc += 4

    def read(self, key: Key, buffer: int, capacity: int) -> bool:
        change = self.changes.get(key)
        if change is None or isinstance(change, Added):
            self.keys.append(key)
        value = self.store.get(key) if change is None else changed_value(self.store.get(key), change)
        copied = 0 if value is None or len(value) > capacity else len(value)
        if self.rules > 1 and not self.charge(copied):
            return False
        if value is not None and copied:
            self.memory[buffer - TEXT : buffer - TEXT + copied] = value
        self.registers[A0] = ABSENT if value is None else LONGER if len(value) > capacity else copied
        return True

    def added(self, change: Change | None, amount: int) -> Change:
        """What an ADD makes of the call's own change at a key."""
        if change is None or isinstance(change, Added):
            return Added(((change.amount if change else 0) + amount) % 2**64)
        value = changed_value(changed_value(None, change), Added(amount))
        assert value is not None
        return Written(value)

    def bytes(self, address: int, length: int) -> bytes:
        return bytes(self.memory[address - TEXT : address - TEXT + length])

    def receipt(self, number: int) -> Receipt:
        assert self.end is not None
        changes = dict(sorted(self.changes.items())) if self.end is End.RETURNED else {}
        return Receipt(number, self.end, self.limit - self.left, self.pc, self.output, tuple(self.registers), changes)


def field_of(change: Change) -> str:
    match change:
        case Added(amount):
            return f"add {amount}"
        case Removed():
            return "gone"
        case Written(value):
            return blocks.field_of(value)


# ---- blocks


class MachineBlock:
    def __init__(self, programs: Sequence[MachineProgram], calls: Iterable[CallLine], store: Storage | None = None, rules: int = 1) -> None:
        self.programs, self.calls, self.store, self.rules = programs, list(calls), store or {}, rules
        self.receipts: list[Receipt] | None = None
        self.keys: list[list[Key]] = []  # of each call the keys that it read
        self.left: Storage = {}

    def text(self, paths: Iterable[str], store: Storage | None = None) -> bytes:
        return texts.block_text(paths, self.store if store is None else store, self.calls, texts.head_of(self.rules)).encode()

    def ran(self) -> list[Receipt]:
        """The receipts of the calls, which run in order if they did not run before."""
        if self.receipts is not None:
            return self.receipts
        self.receipts, self.left = [], dict(self.store)
        for number, (program, limit, data) in enumerate(self.calls):
            call = MachineCall(self.programs[program], self.rules, self.left, limit, data).until(math.inf)
            receipt = call.receipt(number)
            self.receipts.append(receipt)
            self.keys.append(call.keys)
            self.lay(receipt.changes)
        return self.receipts

    def storage(self) -> Storage:
        self.ran()
        return self.left

    def lay(self, changes: Mapping[Key, Change]) -> None:
        for key, change in changes.items():
            value = changed_value(self.left.get(key), change)
            if value is None:
                self.left.pop(key, None)
            else:
                self.left[key] = value

    def receipts_text(self, is_brief: bool = False) -> str:
        lines = []
        for one in self.ran():
            lines.append(f"call {one.number} {one.end} gas {one.gas} pc {one.pc:08x} out {blocks.field_of(one.output)}\n")
            lines += [] if is_brief else [f"regs {' '.join(f'{value:08x}' for value in one.registers)}\n"]
            lines += [f"write {one.number} {key.hex()} {field_of(change)}\n" for key, change in one.changes.items()]
        return "".join(lines)

    def result(self) -> bytes:
        return f"{self.receipts_text()}{''.join(blocks.store_lines(self.storage()))}end\n".encode()

    def conflicts(self) -> bytes:
        return waits.text_of_reads(self.ran(), map(set, self.keys)).encode()

    def steps_by_one(self) -> int:
        receipts = self.ran()
        return sum(5 + 2 * len(keys) + len(receipt.changes) for keys, receipt in zip(self.keys, receipts))
