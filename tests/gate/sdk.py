"""What sdk/contract.h and sdk/host.h say: gas and ends of storage calls, and edges of a test on this machine."""

import re
import shutil
from dataclasses import dataclass
from pathlib import Path

from gate.calls import command, rvstm
from gate.runner import TOP, Case, Run, Tool, same
from gate.texts import GivenCall, block, receipts, written

MAKEFILE, HEADER, HERE = TOP / "sdk/Makefile", TOP / "sdk/contract.h", Path(__file__).parent

# ---- the edges of host.c


def edges(run: Run) -> None:
    """Outputs of no bytes, a full storage, and rules that are not there, with sanitizers."""
    for name in ("edges.c", "edges-test.c"):
        shutil.copy(HERE / name, run.place)
    command(["make", "-s", "-f", MAKEFILE, "CC=cc", "edges-test"], run.place).done()
    command([run.place / "edges-test", "long"]).refused("host.c: the input is too long", 2)
    numbers = {1: "  7", 2: "  1799", 4: "  117901063", 8: "  506381209866536711"}  # 7 in each byte
    shown = [f"    came    reverted  {'07' * length}{numbers.get(length, '')}" for length in range(1, 9)]
    same(command([run.place / "edges-test", "shown"]).out.splitlines()[2::3], shown)
    for rules in range(8):
        done = command([run.place / "edges-test", str(rules)])
        wanted = ("10 passed, 0 failed\n", "host.c: the storage is full: it has at most 1024 keys, also removed ones\n")
        if rules not in (1, 2, 3):
            wanted = ("", f"host.c: set_rules({rules}): the rules are 1, 2 or 3\n")
        same((done.status, done.out, done.errors), (2, *wanted), f"set_rules({rules})")


# ---- gas and ends

INPUT = 0x00100000
KEY, BUFFER = INPUT + 16, INPUT + 64
BEFORE, AFTER = 1 + 4 * 2, 2 + 2 + 10  # the gas before and after that call: `li` is two instructions, and RETURN costs 10


@dataclass(frozen=True)
class Storage:
    """A storage call: its function in C and its number, and what its gas is counted by."""

    function: str
    number: int
    unit: str = "length"

    def call(self, length: int, *, program: int = 0, gas: int = 1_000_000, at: int = KEY) -> GivenCall:
        """The call with this length, and with a key or an output at this address."""
        second, third = (length, 0) if self.number in (3, 4) else (BUFFER, length)
        words = b"".join(word.to_bytes(4, "little") for word in (self.number, second, third, at))
        return GivenCall(program, gas, (words + bytes(1024)).hex())


CALLS = (
    Storage("storage_read", 0, "copied bytes"), Storage("storage_write", 1), Storage("storage_remove", 2), Storage("storage_add", 5),
    Storage("return_output", 3), Storage("revert", 4),
)


def came(run: Run, rules: int, calls: list[GivenCall]) -> list[tuple[str, int]]:
    """The ends and the gas of calls over a key whose value has 8 bytes."""
    written(run.place / "one.block", block(["one.elf", "many.elf"], calls, {"00" * 32: "07" * 8}, f"rvblock 2\ngas {rules}\n"))
    return [(one.end, one.gas) for one in receipts(rvstm(run, "seq", "one.block", folder=run.place).done())]


def gas_of(run: Run, storage: Storage, rules: int) -> str:
    """The gas of a storage call, by calls with a length of 0 and of 8."""
    found = []
    for end, gas in came(run, rules, [storage.call(0), storage.call(8)]):
        found.append(gas - BEFORE - (AFTER if storage.number not in (3, 4) else 0))
    each = (found[1] - found[0]) // 8
    return f"{found[0]}{f' + {each} * {storage.unit}' if each else ''}".replace(" 1 * ", " ")


def ends_of(run: Run, storage: Storage) -> set[str]:
    """The ends of calls that are too long, have too little gas, no rights, 257 keys or older rules."""
    calls = [storage.call(0), storage.call(257), storage.call(0, gas=BEFORE + 9), storage.call(8, at=0), storage.call(0, program=1)]
    found = {end for rules in (1, 2, 3) for end, _ in came(run, rules, calls)}
    return found - {"returned", "reverted"}


def header(run: Run) -> None:
    """Gas and ends as contract.h has them, in comments that doxygen reads, are those of the program."""
    text = HEADER.read_text(encoding="utf-8")
    found = re.findall(r"/\*\*((?:(?!\*/).)*)\*/\s*STORAGE_CALL \w+ (\w+)\(", text, re.S)
    comments = {name: " ".join(comment.replace("\n * ", " ").split()) for comment, name in found}
    same(list(comments), [storage.function for storage in CALLS], "the functions with a comment")
    for source, program in (("one_storage_call.s", "one.elf"), ("many_storage_calls.s", "many.elf")):
        rvstm(run, "asm", HERE / source, "--out", program, folder=run.place).done()
    for storage in CALLS:
        _, gas, ends = re.split(r"@par (?:Gas|Ends) ", comments[storage.function])
        new = gas_of(run, storage, 3)
        old = gas_of(run, storage, 1) if storage.number != 5 else new
        same(gas.strip(), old if old == new else f"{new}; under rules one {old}", f"the gas of {storage.function}")
        same(set(re.findall("`([a-z-]+)`", ends)), ends_of(run, storage), f"the ends of {storage.function}")


def cases() -> list[Case]:
    return [Case("sdk: the edges of host.c", edges, (Tool.CC, Tool.MAKE), cost=2), Case("sdk: gas and ends in contract.h", header)]
