"""Keys of rows in C (sdk/rows.h): by both compilers against a model, what they cost, and what does not compile."""

import random
import re
import shutil
import tomllib
from collections.abc import Sequence
from dataclasses import dataclass
from functools import partial
from pathlib import Path
from typing import TypeVar

from gate.calls import command, rvstm
from gate.runner import CONTRACTS, TOP, Case, Run, Tool, holds, same
from gate.stumbles import COMPILERS, FLAGS
from gate.texts import GivenCall, block, receipts, written

MAKEFILE, KEYS = TOP / "sdk/Makefile", Path(__file__).with_name("row_keys.c")
FULL = 28
Batched = TypeVar("Batched")
TABLE = tomllib.loads(Path(__file__).with_suffix(".toml").read_text(encoding="utf-8"))
NEEDS = {"clang": CONTRACTS, "gnu": (Tool.GCC, Tool.MAKE)}


def key(table: str, row: bytes) -> bytes:
    """The key of a row, as docs/contracts.md defines it."""
    if len(row) == FULL:
        return table.encode().ljust(4, b"\0") + row
    return table.encode().ljust(4, b"\0") + row.ljust(FULL - 1, b"\0") + bytes([len(row)])


def some_rows(seed: int) -> list[bytes]:
    """Rows of all lengths: zeros, a text that is cut, and random bytes, some of which differ only in end zeros."""
    chance = random.Random(seed)
    found = [row for length in range(1, FULL + 1) for row in (bytes(length), b"\x1b" * length, bytes(range(1, length + 1)), chance.randbytes(length))]
    for _ in range(30):
        start = chance.randbytes(chance.randint(1, FULL - 1))
        found += [start, start.ljust(chance.randint(len(start), FULL), b"\0")]
    return sorted(set(found))


def keys_by_model(run: Run, compiler: str) -> None:
    """Each key is that of the model, and no two rows have one key."""
    shutil.copy(KEYS, run.place / "keys.c")
    command(["make", "-s", "-f", MAKEFILE, f"TOOLS={compiler}", "keys.elf"], run.place).done()
    rows = some_rows(run.setting.seed)
    calls = [GivenCall(data=(bytes([left]) + bytes(left) + row).hex()) for row in rows for left in range(4)]
    parts = bytes(random.Random(run.setting.seed).randbytes(28))
    calls += [GivenCall(data=(b"\4\0\0\0" + parts).hex()), GivenCall()]
    outputs = [bytes.fromhex(one.output) for part in batches(calls) for one in receipts(rvstm(run, "seq", part_of(run, part), folder=run.place).done())]
    seen = dict[bytes, tuple[str, bytes]]()
    for row, at in ((row, 4 * number + left) for number, row in enumerate(rows) for left in range(4)):
        tables = ["pay"] if len(row) == FULL else ["acct", "B"]
        same(outputs[at].hex(), b"".join(key(table, row) for table in tables).hex(), f"{row.hex()} at byte {at % 4}")
        for table, made in zip(tables, (outputs[at][:32], outputs[at][32:])):
            same(seen.setdefault(made, (table, row)), (table, row), "a key of two rows")
    who, large = parts[:20], parts[20:]
    wanted = [("pay", who + large), ("acct", large[:4] + who + large[:2]), ("acct", large[:1] + large[:2] + who[:3] + large), ("B", large[:1] + parts[:26])]
    same(outputs[-2].hex(), b"".join(key(table, row) for table, row in wanted).hex(), "parts")
    number = 0x123456789ABCDEF0.to_bytes(8, "little")
    same(outputs[-1], key("acct", b"pot") + key("B", b"abcdefghijklmnopqrstuvwxyz0") + key("acct", number), "constants")


def batches(calls: Sequence[Batched]) -> list[Sequence[Batched]]:
    """The calls of blocks, of which each has at most 1,000."""
    return [calls[at : at + 1000] for at in range(0, len(calls), 1000)]


def part_of(run: Run, calls: Sequence[GivenCall]) -> str:
    written(run.place / "keys.block", block(["keys.elf"], calls))
    return "keys.block"


def keys_on_this_machine(run: Run) -> None:
    """Keys of rows of all lengths and at all places, compiled for this machine with its sanitizers."""
    shutil.copy(KEYS, run.place / "keys.c")
    shutil.copy(KEYS.with_name("row_keys-test.c"), run.place / "keys-test.c")
    command(["make", "-s", "-f", MAKEFILE, "CC=cc", "keys-test"], run.place).done()
    rows = [bytes(range(1, length + 1)) for length in range(1, FULL + 1) for _ in range(4)]
    wanted = [b"".join(key(table, row) for table in (["pay"] if len(row) == FULL else ["acct", "B"])).hex() for row in rows]
    same(command([run.place / "keys-test"]).done(), "".join(f"{line}\n" for line in wanted))


# ---- costs

@dataclass(frozen=True)
class KeyCost:
    """A key that a call makes and removes, the length of its input, and the most gas that the key may cost."""

    statement: str
    length: int
    most: int


COSTS = [KeyCost(*row) for row in TABLE["costs"]]
COST = """#include "rows.h"
TABLE(acct);
FULL_TABLE(pay);
typedef u8 odd[27] __attribute__((aligned(4)));
static const struct key constant = TEXT_KEY(acct, "pot");
RUNS
static void (*const runs[])(const u8 *, u32) = {NAMES};
void contract(const u8 *input, u32 length) {
    runs[input[0]](input + 4, length - 4);
}
"""
ONE_RUN = "static void run{}(const u8 *input, u32 length) {{ struct key key; {} }}"


def costs(run: Run, compiler: str) -> None:
    """The gas of each key, beside that of a constant one, which costs nothing."""
    bodies = ["storage_remove(&constant);", *(f"{cost.statement} storage_remove(&key);" for cost in COSTS)]
    runs = "\n".join(ONE_RUN.format(number, body) for number, body in enumerate(bodies))
    names = ", ".join(f"run{number}" for number in range(len(bodies)))
    written(run.place / "costs.c", COST.replace("RUNS", runs).replace("NAMES", names))
    command(["make", "-s", "-f", MAKEFILE, f"TOOLS={compiler}", "costs.elf"], run.place).done()
    calls = [GivenCall(data=(bytes([number, 0, 0, 0]) + bytes(length)).hex()) for number, length in enumerate([0, *(cost.length for cost in COSTS)])]
    written(run.place / "costs.block", block(["costs.elf"], calls))
    constant, *others = receipts(rvstm(run, "seq", "costs.block", folder=run.place).done())
    for cost, one in zip(COSTS, others):
        same(one.end, "returned", cost.statement)
        holds(one.gas - constant.gas <= cost.most, f"{one.gas - constant.gas} gas of {cost.statement}", f"at most {cost.most}")


# ---- what does not compile

@dataclass(frozen=True)
class Wrong:
    """A declaration and a statement that do not compile together, and a part of what both compilers say."""

    declared: str
    statement: str
    said: str


WRONG = [Wrong(*row) for row in TABLE["wrong"]]
SOURCE = """#include "rows.h"
DECLARED
void contract(const u8 *input, u32 length) {
    struct key key;
    const struct account *who = (const struct account *)input;
    STATEMENT
    storage_remove(who == 0 || length == 0 ? (const void *)input : &key);
}
"""


def refused(run: Run, compiler: str) -> None:
    """What does not compile, and what is said of it."""
    for number, wrong in enumerate(WRONG):
        text = SOURCE.replace("DECLARED", wrong.declared).replace("STATEMENT", wrong.statement)
        written(run.place / f"wrong{number}.c", text)
        done = command([*COMPILERS[compiler], *FLAGS, "-c", f"wrong{number}.c"], run.place)
        holds(done.status != 0, f"{wrong} compiled", "a refusal")
        said = " ".join(re.findall(r"(?:error|warning): (.*)", done.errors))
        holds(wrong.said in said, f"{wrong}: {said}", wrong.said)


def cases() -> list[Case]:
    found = [Case("rows on this machine", keys_on_this_machine, (Tool.CC, Tool.MAKE))]
    for compiler, needs in NEEDS.items():
        found += [
            Case(f"rows by {compiler}: keys by a model", partial(keys_by_model, compiler=compiler), needs, cost=2),
            Case(f"rows by {compiler}: costs", partial(costs, compiler=compiler), needs, cost=3),
            Case(f"rows by {compiler}: what does not compile", partial(refused, compiler=compiler), needs, cost=4),
        ]
    return found
