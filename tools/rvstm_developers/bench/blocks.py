"""The blocks that are timed: how their calls are made, and the programs that they take."""

import random
import re
from collections.abc import Sequence
from dataclasses import dataclass, field, replace
from pathlib import Path
from typing import NamedTuple

from rvstm_developers import running, texts
from rvstm_developers.texts import TOP, word
from rvstm_tools.texts.blocks import CallLine
from rvstm_tools.texts.keys import Storage
from rvstm_tools.texts.keys import numbered_key as key

FOLDER = TOP / "bench"
ACCOUNTS = 1900
CALLS = 1000
ROUNDS, LONGEST_GAS = 100_000, 10_000_000
INSTRUCTIONS_A_ROUND, OTHER_INSTRUCTIONS = 5, 9  # of bench/programs/work.s
RULES = {"bump": 3}  # of programs that want later rules than one
SPEED_PROGRAMS = ("sha256", "sieve", "crc32")  # the programs of speed.block, by their numbers


class TimedCall(NamedTuple):
    gas: int
    data: bytes


@dataclass(frozen=True)
class TimedBlock:
    """A block of calls of one program: what it is called, its program in bench/programs, its calls and its storage."""

    name: str
    source: str
    calls: Sequence[TimedCall]
    store: Storage = field(default_factory=dict)

    def text(self, program: str | Path | None = None, rules: int | None = None) -> str:
        """The block file, with another path of the program or later rules if that is asked for."""
        calls = [CallLine(0, *call) for call in self.calls]
        head = texts.head_of(RULES.get(self.source, 1) if rules is None else rules)
        return texts.block_text([program or f"{self.source}.elf"], self.store, calls, head)

    def first(self, count: int) -> "TimedBlock":
        return replace(self, calls=self.calls[:count])

    def empty(self) -> "TimedBlock":
        """The same with a gas limit of 1 for each call: the files, the text and the starts of calls are left."""
        return replace(self, calls=[call._replace(gas=1) for call in self.calls])


def mixing(length: int, count: int) -> list[TimedCall]:
    """Calls of bench/programs/work.s of so many instructions, each on a key of its own."""
    mixes = word((length - OTHER_INSTRUCTIONS) // INSTRUCTIONS_A_ROUND)
    return [TimedCall(LONGEST_GAS, key(number) + mixes) for number in range(count)]


def compute() -> TimedBlock:
    return TimedBlock("compute on keys of its own", "work", [TimedCall(1_000_000, key(n) + word(ROUNDS)) for n in range(64)])


def transfers() -> TimedBlock:
    choice = random.Random(1)
    calls = [TimedCall(2_000, b"".join(key(n) for n in choice.sample(range(ACCOUNTS), 2))) for _ in range(CALLS)]
    return TimedBlock("transfers on 1,900 accounts", "transfer", calls, {key(n): word(1000) for n in range(ACCOUNTS)})


def hot_key() -> TimedBlock:
    return TimedBlock("one hot key", "counter", [TimedCall(1_000, key(0))] * CALLS)


def hot_sum() -> TimedBlock:
    return TimedBlock("one hot key, added to", "bump", [TimedCall(1_000, key(0))] * CALLS)


def chain() -> TimedBlock:
    """Calls of which each reads what the one before wrote."""
    return TimedBlock("a chain through the whole block", "pass", [TimedCall(1_000, key(n) + key(n + 1)) for n in range(CALLS)])


def assemble(rvstm: Path, place: Path, source: str) -> Path:
    path = TOP / "examples/counter/counter.s" if source == "counter" else FOLDER / f"programs/{source}.s"
    running.output_of([rvstm, "asm", path, "--out", f"{source}.elf"], place)
    return place / f"{source}.elf"


def speed_calls(number: int) -> list[TimedCall]:
    rows = [line.split(" ") for line in (FOLDER / "speed.block").read_text(encoding="utf-8").splitlines()]
    return [TimedCall(int(row[2]), bytes.fromhex(row[3].replace("-", ""))) for row in rows if row[:2] == ["call", str(number)]]


def calls_again(example: str, count: int) -> str:
    """The block of an example with so many calls: its own, again and again. The path of its program is whole."""
    folder = TOP / "examples" / example
    lines = (folder / f"{example}.block").read_text(encoding="utf-8").splitlines()
    head = [line for line in lines if not line.startswith("call ")]
    calls = [line for line in lines if line.startswith("call ")]
    head = [re.sub(r"^(program \d+ )", rf"\1{folder}/", line) for line in head]
    return texts.lines_of([*head, *(calls[number % len(calls)] for number in range(count))])
