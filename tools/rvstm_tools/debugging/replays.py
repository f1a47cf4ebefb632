"""Replays of a call: each step of it, the functions that it is in, and its storage calls."""

import enum
import sys
import time
from collections import defaultdict
from dataclasses import dataclass, field
from typing import NamedTuple

from rvstm_tools.debugging import charges
from rvstm_tools.debugging.charges import StorageCall
from rvstm_tools.debugging.sessions import LINES_AT_ONCE, CallOf, Debugger
from rvstm_tools.errors import UserError
from rvstm_tools.texts import shown
from rvstm_tools.texts.keys import KEY_LENGTH, Key
from rvstm_tools.texts.results import End, Receipt
from rvstm_tools.texts.views import View

SECONDS_BETWEEN_REPORTS = 2
LINKS = ("x1", "x5")  # the registers that hold return addresses
RETURNS = ("x0,0(x1)", "x0,0(x5)")
A0, A1, A2, A7 = 10, 11, 12, 17
ABSENT, LONGER = 2**32 - 1, 2**32 - 2  # what a READ answers in a0 if it copies nothing
ECALL = "ecall"
OUTPUTS = (StorageCall.RETURN, StorageCall.REVERT)


class Turn(enum.Enum):
    PLAIN = enum.auto()
    CALL = enum.auto()
    RETURN = enum.auto()
    ECALL = enum.auto()


def turn_of(text: str) -> Turn:
    mnemonic, _, operands = text.partition(" ")
    if mnemonic == ECALL:
        return Turn.ECALL
    if mnemonic in ("jal", "jalr") and operands.split(",")[0] in LINKS:
        return Turn.CALL
    return Turn.RETURN if mnemonic == "jalr" and operands in RETURNS else Turn.PLAIN


class Frame:
    """A call of a function from one place of its caller: how often it ran each instruction, and what it calls."""

    def __init__(self, caller: "Frame | None" = None, call_pc: int = 0) -> None:
        self.caller = caller
        self.call_pc = call_pc  # the address of the call in the caller
        self.callees: dict[int, Frame] = {}
        self.counts = defaultdict[int, int](int)

    def callee(self, call_pc: int) -> "Frame":
        if call_pc not in self.callees:
            self.callees[call_pc] = Frame(self, call_pc)
        return self.callees[call_pc]

    def returned_to(self, pc: int) -> "Frame":
        """The frame that continues at a return address; this one if no frame was called from there."""
        frame: Frame | None = self
        while frame and frame.caller:
            if frame.call_pc + 4 == pc:
                return frame.caller
            frame = frame.caller
        return self


@dataclass
class StorageStep:
    """A storage call of a replay: where it is, what it is given, and what it answers or how it ends the call."""

    moment: int
    pc: int
    number: int  # of the storage call; it may be one that the machine does not have
    key: Key | None  # none if it is outside memory
    length: int  # the capacity of a READ, the length of a value or of an output
    data: bytes | None  # the value or the output, or what a READ copied; None if it is outside memory
    amount: int  # of an ADD
    frame: Frame = field(default_factory=Frame)
    gas: int = 0  # before it
    cost: int = 0
    answer: int | None = None  # what is in a0 after a READ; None if the call ended before

    def is_known(self) -> bool:
        return self.number < len(charges.NAMES)

    def name(self) -> str:
        return charges.NAMES[self.number] if self.is_known() else f"ECALL {self.number}"

    def text(self, view: View) -> str:
        return f"{self.name()} {self._words(view)}".rstrip()

    def _words(self, view: View) -> str:
        if not self.is_known():
            return ""
        key = "a key outside memory" if self.key is None else view.key(self.key)
        match StorageCall(self.number):
            case StorageCall.READ:
                return f"{key} up to {self.length} bytes: {self._shown_answer(view)}"
            case StorageCall.WRITE:
                return f"{key}: {self._shown_value(view)}"
            case StorageCall.ADD:
                return f"{key}: +{self.amount}"
            case StorageCall.REMOVE:
                return key
            case _:  # RETURN and REVERT
                return shown_data(self.data)

    def _shown_answer(self, view: View) -> str:
        answers = {None: "no answer", ABSENT: "absent", LONGER: "longer"}
        return answers.get(self.answer) or self._shown_value(view)

    def _shown_value(self, view: View) -> str:
        return shown_data(self.data) if self.key is None or self.data is None else view.value(self.key, self.data)


def shown_data(data: bytes | None) -> str:
    return "outside memory" if data is None else shown.shown_bytes(data)


def asked(session: Debugger, moment: int, pc: int) -> StorageStep:
    registers = session.registers()
    number, a0, a1, a2 = registers[A7], registers[A0], registers[A1], registers[A2]
    is_output = number in OUTPUTS
    key = None if is_output else session.memory(a0, KEY_LENGTH)
    length = a1 if is_output else a2
    has_data = is_output or number == StorageCall.WRITE
    data = session.memory(a0 if is_output else a1, length) if has_data else None
    return StorageStep(moment, pc, number, None if key is None else Key(key), length, data, a1 + (a2 << 32))


def take_answer(session: Debugger, call: StorageStep) -> None:
    """Makes the step of a READ, and takes over what it answers."""
    buffer = session.registers()[A1]
    session.answer("s")
    call.answer = session.registers()[A0]
    if call.answer not in (ABSENT, LONGER):
        call.data = session.memory(buffer, call.answer)


class Progress:
    def __init__(self, total: int) -> None:
        self.total = total
        self.next = time.monotonic() + SECONDS_BETWEEN_REPORTS

    def report(self, done: int) -> None:
        if time.monotonic() >= self.next:
            print(f"trace: {done:,} steps are done, {self.total - done:,} are left", file=sys.stderr, flush=True)
            self.next = time.monotonic() + SECONDS_BETWEEN_REPORTS


class Fact(NamedTuple):
    """What is known of an instruction: its address, its text, what it costs, and what it does to the functions."""

    pc: int
    text: str
    cost: int
    turn: Turn


class StorageReplay:
    def __init__(self, call: CallOf, rules: int) -> None:
        self.rules = rules
        self.gas = 0
        self.storage_calls: list[StorageStep] = []
        self.entry = self.last_frame = Frame()
        self.facts: dict[bytes, Fact] = {}  # by the addresses, as `debug` prints them
        self.last_cost = 0  # what the last instruction costs, which ends the call
        with Debugger(call) as session:
            self.total = session.run_to_end()
        with Debugger(call) as steps, Debugger(call) as places:
            self.last = self._walk(steps, places)

    def addresses(self) -> list[int]:
        return [fact.pc for fact in self.facts.values()]

    def texts(self) -> dict[int, str]:
        return {fact.pc: fact.text for fact in self.facts.values()}

    def _walk(self, steps: Debugger, places: Debugger) -> Fact:
        """Goes through all instructions but the last, which ends the call, and then looks at that one. Returns it."""
        progress, frame, is_return = Progress(self.total), self.entry, False
        line = steps.answer_bytes("w")
        answers = steps.answers("s", self.total - 1)
        for done in range(self.total - 1):
            fact = self._fact_of(line)
            if is_return:
                frame = frame.returned_to(fact.pc)
            if fact.turn is Turn.ECALL:
                self._take_storage_call(places, done, fact.pc, frame)
            else:
                frame.counts[fact.pc] += 1
                self.gas += fact.cost
            if fact.turn is Turn.CALL:
                frame = frame.callee(fact.pc)
            is_return = fact.turn is Turn.RETURN
            if not done % LINES_AT_ONCE:
                progress.report(done)
            line = next(answers)
        last = self._fact_of(line)
        self.last_frame = frame.returned_to(last.pc) if is_return else frame
        if last.turn is Turn.ECALL:
            self.storage_calls.append(self._asked(places, self.total - 1, last.pc, self.last_frame))
        return last

    def _fact_of(self, line: bytes) -> Fact:
        _, pc, text = line.split(b" ", 2)
        fact = self.facts.get(pc)
        if fact is None:
            plain = text.decode().strip()
            fact = self.facts[pc] = Fact(int(pc, 16), plain, charges.of_instruction(plain), turn_of(plain))
        return fact

    def _asked(self, places: Debugger, moment: int, pc: int, frame: Frame) -> StorageStep:
        """A storage call before it is answered. A session goes to it."""
        if places.here().moment < moment:
            places.answer(f"g {pc:08x}")
        if places.here().moment != moment:
            raise UserError(f"two replays of the call are not the same at step {moment}; please report it")
        call = asked(places, moment, pc)
        call.frame, call.gas = frame, self.gas
        return call

    def _take_storage_call(self, places: Debugger, moment: int, pc: int, frame: Frame) -> None:
        call = self._asked(places, moment, pc, frame)
        if call.number == StorageCall.READ:
            take_answer(places, call)
        call.cost = charges.of_storage_call(call.number, call.length, len(call.data or b""), self.rules)
        self.gas += call.cost
        self.storage_calls.append(call)

    def end_by(self, receipt: Receipt, limit: int) -> None:
        """Adds what the last instruction costs if the call ends as its receipt says, and compares the sums."""
        cost = 0
        if receipt.end is End.OUT_OF_GAS:
            cost = limit - self.gas
        elif receipt.end not in charges.FREE_ENDS:
            cost = self._cost_of_last()
        self.last_cost = cost
        if self.last.turn is Turn.ECALL:
            self.storage_calls[-1].cost = cost
        if self.gas + cost != receipt.gas:
            raise UserError(f"the steps cost {self.gas + cost} gas, and the receipt says {receipt.gas}; please report it")

    def _cost_of_last(self) -> int:
        """What the last instruction costs if the machine charges it."""
        if self.last.turn is not Turn.ECALL:
            return self.last.cost
        call = self.storage_calls[-1]
        return charges.of_storage_call(call.number, call.length, 0, self.rules)
