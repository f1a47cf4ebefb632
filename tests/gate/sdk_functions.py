"""Each function of the SDK, by one table of inputs: on this machine with sanitizers, as contracts by both compilers, and in Rust.

What has to come is worked out here by Python's numbers, bytes and hashes.
"""

import enum
import hashlib
import random
import re
import shutil
from collections.abc import Iterator, Sequence
from dataclasses import dataclass
from functools import partial
from pathlib import Path

from gate.calls import command, rvstm
from gate.rows import MAKEFILE, NEEDS, batches
from gate.runner import TOP, Case, Lacks, Run, Tool, holds, same
from gate.texts import GivenCall, block, receipts, written

FUNCTIONS = TOP / "tests/gate/sdk_functions.c"
NUMBERS = (0, 1, 2, 9, 10, 2**16 - 1, 2**31, 2**32 - 1, 2**32, 2**63, 2**64 - 2, 2**64 - 1)
LENGTHS = (0, 1, 55, 56, 57, 63, 64, 65, 119, 120, 128)
TAGS = (b"", b"t", b"a.tag.of.23.bytes......", b"a tag of 64 bytes, which is as long as a block of the digest is..")
TOO_LONG, TOO_SHORT = ("reverted", b"the input is too long"), ("reverted", b"the input is too short")
PRODUCTS = 10_000
MUL_DIV = 800  # gas: that of mul_div, which numbers.h gives, and what else such a call does
Came = tuple[str, bytes]  # the end of a call and its output


class Of(enum.IntEnum):
    """What sdk_functions.c is asked for, by the first byte of the input."""

    NUMBER, CURSOR, DECIMAL, PRODUCT, QUOTIENTS, DIGEST, BYTES, ROW, ACCOUNTS, STORAGE = range(10)
    NOTHING = 255


IN_RUST = (Of.CURSOR, Of.DECIMAL, Of.PRODUCT, Of.DIGEST, Of.ROW, Of.STORAGE)
PIECES = 3  # how a digest is asked for of pieces, which Rust has not


@dataclass(frozen=True)
class FunctionCall:
    """A call of sdk_functions.c: its input, and what has to come under each set of rules."""

    data: bytes
    wanted: Came
    rules: int = 3


def returned(*parts: bytes | int) -> Came:
    return "returned", b"".join(part.to_bytes(8, "little") if isinstance(part, int) else part for part in parts)


def words(*numbers: int) -> bytes:
    return returned(*numbers)[1]


def of_numbers(chance: random.Random) -> Iterator[FunctionCall]:
    for at in range(4):
        data = chance.randbytes(12)
        row = data[at : at + 8]
        yield FunctionCall(bytes([Of.NUMBER, at, 0, 0]) + data, returned(b"\7" + row + b"\7\7" + row[:4] + b"\7"))
    for number in (*NUMBERS, *(10**digits + more for digits in range(2, 20) for more in (-1, 0))):
        yield FunctionCall(bytes([Of.DECIMAL, 0, 0, 0]) + words(number), returned(str(number).encode()))
    for kind, length in enumerate((1, 4, 8, 32, 20, 7)):
        data = chance.randbytes(40)
        for there, is_end, wanted in (
            (length, 0, returned(data[:length], bytes(4))), (length + 3, 0, returned(data[:length] + b"\3\0\0\0")), (length - 1, 0, TOO_SHORT),
            (length, 1, returned(data[:length], bytes(4))), (length + 1, 1, TOO_LONG),
        ):
            yield FunctionCall(bytes([Of.CURSOR, kind, length, is_end]) + data[:there], wanted)


def signed(number: int) -> int:
    return number - 2**64 if number >> 63 else number


def of_quotients(chance: random.Random) -> Iterator[FunctionCall]:
    """Quotients, rounded to zero, with the sign of C; and those of products, with one below and one above 2^64."""
    pairs = [(one, other) for one in NUMBERS for other in NUMBERS if other]
    pairs += [(chance.getrandbits(64), chance.getrandbits(chance.randint(1, 64)) | 1) for _ in range(20)]
    for one, other in pairs:
        left, right = signed(one), signed(other)
        quotient = abs(left) // abs(right) * (1 if (left < 0) == (right < 0) else -1)
        if (left, right) != (-(2**63), -1):  # which has no quotient in C
            yield FunctionCall(bytes([Of.QUOTIENTS, 0, 0, 0]) + words(one, other), returned(one // other, one % other, quotient % 2**64, (left - quotient * right) % 2**64))
    edges = [(one, other, by) for one in NUMBERS[::2] for other in NUMBERS[1::2] for by in (1, 2**32 + 1, 2**64 - 1)]
    edges += [(2**64 - 1, 2**64 - 1, by) for by in (2**64 - 1, 2**64 - 2)] + [(2**32, 2**32, 1), (2**63, 2, 1), (2**64 - 1, 1, 1), (3, 2**63, 3 * 2**62), (5, 7, 0)]
    for _ in range(40):  # a quotient near the greatest one, so that guesses of digits are too large
        by = chance.getrandbits(chance.randint(1, 64)) | 1
        one = max(1, chance.getrandbits(chance.randint(1, 64)))
        edges.append((one, min((chance.choice((2**64 - 1, chance.getrandbits(48) << 16)) * by + chance.randrange(by)) // one, 2**64 - 1), by))
    yield from (product(*edge, up) for edge in edges for up in (0, 1))


def product(one: int, other: int, by: int, up: int) -> FunctionCall:
    """A product of 128 bits that is divided, rounded down or up."""
    quotient = (one * other + (by - 1) * up) // by if by else 0
    wanted = returned(quotient) if by and quotient < 2**64 else ("reverted", b"the quotient is too large" if by else b"division by zero")
    return FunctionCall(bytes([Of.PRODUCT, up, 0, 0]) + words(one, other, by), wanted)


def any_number(chance: random.Random) -> int:
    """A number of 64 bits: one at an edge, or one of a random length."""
    return chance.choice((*NUMBERS, 0xFFFF << 48, 1 << 48)) if chance.random() < 0.2 else chance.getrandbits(chance.randint(0, 64))


def of_digests(chance: random.Random) -> Iterator[FunctionCall]:
    def digest(*parts: bytes) -> Came:
        return returned(hashlib.sha256(b"".join(parts)).digest())

    for length in LENGTHS:
        data = chance.randbytes(length)
        yield FunctionCall(bytes([Of.DIGEST, 0, 0, 0]) + data, digest(data))
        for piece in (1,) if length == 57 else (63, 64, 65) if length > 64 else ():
            yield FunctionCall(bytes([Of.DIGEST, PIECES, piece, 0]) + data, digest(data))
    for number, tag in enumerate(TAGS):
        for at in (0, 1, 27, 28, 32):
            data = chance.randbytes(32)
            yield FunctionCall(bytes([Of.DIGEST, 1, 0, number]) + data, digest(tag, data))
            lengths = (at.to_bytes(4, "little"), (32 - at).to_bytes(4, "little"))
            yield FunctionCall(bytes([Of.DIGEST, 2, at, number]) + data, digest(b"\0", tag, b"\0", lengths[0], data[:at], lengths[1], data[at:]))


def of_bytes() -> Iterator[FunctionCall]:
    """Copies, fills and comparisons of 0 to 8 bytes at all alignments, over one another and beside one another."""
    data = bytes([1, 255, 1, 127, 128, 1, 255, 1, 128, 127, 1, 255, 1, 127, 128, 1, 2, 3, 4, 5, 6, 7, 8, 9, *range(60, 76)])
    for kind, places in enumerate((range(4), range(0, 9), range(4), (0, 1, 3, 5, 10))):
        for to in places if kind != 1 else (0, 1, 4, 6):
            for other in places if kind != 2 else (0, 0xAB):
                out = bytearray()
                for count in range(9):
                    buffer = bytearray(data[:28])
                    one, two = buffer[to : to + count], buffer[other : other + count]
                    if kind == 3:
                        buffer[0] = ((one > two) - (one < two)) % 256
                    else:
                        buffer[to : to + count] = (data[24 + other : 24 + other + count], two, bytes([other]) * count)[kind]
                    out += buffer
                yield FunctionCall(bytes([Of.BYTES, kind, to, other]) + data, returned(bytes(out)))


def of_rows(chance: random.Random) -> Iterator[FunctionCall]:
    def key(row: bytes) -> bytes:
        return b"T\0\0\0" + row.ljust(27, b"\0") + bytes([len(row)])

    for length in (0, 1, 2, 26, 27, 28, 32):
        for at in range(4):
            data = chance.randbytes(36)
            row = data[at : at + length]
            wanted = returned(key(b"a"), key(words(0xFEDCBA9876543210)), key(row)) if 1 <= length <= 27 else ("reverted", b"a row has 1 to 27 bytes")
            yield FunctionCall(bytes([Of.ROW, length, at, 0]) + data, wanted)
    who = chance.randbytes(20)
    for at in range(-1, 20):
        other = bytes(byte ^ (0x80 if place == at else 0) for place, byte in enumerate(who))
        yield FunctionCall(bytes([Of.ACCOUNTS, 0, 0, 0]) + who + other, returned(b"\0" if other != who else b"\1"))


def of_storage(chance: random.Random) -> Iterator[FunctionCall]:
    """Lengths at and above the limits under each set of rules, sums, and 256 and 257 keys."""
    value, absent, longer = bytes(at % 256 for at in range(1, 258)), b"\xff" * 4, b"\xfe" + b"\xff" * 3
    for rules, limit in ((1, 64), (2, 256), (3, 256)):
        def at(kind: int, first: int, second: int, wanted: Came, rules: int = rules) -> FunctionCall:
            code = [length // 64 * 2 + length % 64 for length in (first, second)]
            return FunctionCall(bytes([Of.STORAGE, kind, *code]) + key, wanted, rules)

        for first, second in ((0, 0), (0, 1), (1, 0), (1, 1), (1, 64), (64, 64), (64, 1), (65, 128), (128, 65), (64, 65), (256, 256), (256, 257), (257, 256)):
            key = chance.randbytes(32)
            there = longer if first > second else first.to_bytes(4, "little") + (value[:first] if first <= 252 else b"")
            yield at(0, first, second, ("bad-length", b"") if max(first, second) > limit else returned(there))
            yield at(1, first, second, ("bad-length", b"") if max(first, second) > limit else returned(absent))
        for first in (0, 1, 256, 257):
            yield from (at(kind, first, 0, (end, value[:first]) if first < 257 else ("bad-length", b"")) for kind, end in ((3, "returned"), (4, "reverted")))
        for first in (1, 64):
            key = chance.randbytes(32)
            amount, before = int.from_bytes(key[:8], "little"), int.from_bytes(value[:8], "little") if first == 64 else 0
            yield at(2, first, 0, returned(b"\10\0\0\0", (amount + before) % 2**64) if rules == 3 else ("unknown-call", b""))
        for kind in range(3):
            yield at(5, 64, kind, ("unknown-call", b"") if kind == 2 and rules < 3 else ("returned", b""))
            yield at(5, 65, kind, ("unknown-call", b"") if kind == 2 and rules < 3 else ("too-many-writes", b""))


def all_asked(seed: int) -> list[FunctionCall]:
    chance = random.Random(seed)
    made = (of_numbers(chance), of_quotients(chance), of_digests(chance), of_bytes(), of_rows(chance), of_storage(chance))
    return [*(asked for part in made for asked in part), FunctionCall(bytes([Of.NOTHING]), ("returned", b""))]


def differences(asked: Sequence[FunctionCall], came: Sequence[Came]) -> None:
    for one, other in zip(asked, came, strict=True):
        same(other, one.wanted, f"{one.data.hex()} under rules {one.rules}")


def as_contracts(run: Run, compiler: str) -> None:
    make_contract(run, compiler)
    gas = differences_as_contracts(run, all_asked(run.setting.seed))
    dear = [used for data, used in gas.items() if data[0] == Of.PRODUCT and used > MUL_DIV]
    same(dear, [], f"the gas of mul_div above {MUL_DIV}")
    for kind, other in ((0, (0, 1)), (2, (1, 0))):
        at_words, at_bytes = (next(gas[data] for data in gas if data[:4] == bytes([Of.BYTES, kind, *at])) for at in ((0, 0), other))
        holds(at_words < at_bytes, f"{at_words} gas at multiples of 4 and {at_bytes} at others", "less by copies of words")


def make_contract(run: Run, compiler: str) -> None:
    shutil.copy(FUNCTIONS, run.place / "functions.c")
    command(["make", "-s", "-f", MAKEFILE, f"TOOLS={compiler}", "functions.elf"], run.place).done()


def many_products(run: Run, compiler: str) -> None:
    make_contract(run, compiler)
    chance = random.Random(run.setting.seed)
    asked = [product(any_number(chance), any_number(chance), any_number(chance), number % 2) for number in range(PRODUCTS)]
    differences_as_contracts(run, asked)


def differences_as_contracts(run: Run, asked: Sequence[FunctionCall]) -> dict[bytes, int]:
    """Ends the case if a call of functions.elf ends otherwise. The gas of each input."""
    gas = dict[bytes, int]()
    for part in (part for rules in (1, 2, 3) for part in batches([one for one in asked if one.rules == rules])):
        rules = part[0].rules
        written(run.place / "all.block", block(["functions.elf"], [GivenCall(data=one.data.hex()) for one in part], head=f"rvblock 2\ngas {rules}\n"))
        found = receipts(rvstm(run, "seq", "all.block", folder=run.place).done())
        differences(part, [(one.end, bytes.fromhex(one.output.replace("-", ""))) for one in found])
        gas |= {one.data: receipt.gas for one, receipt in zip(part, found)}
    return gas


RENAMED = "".join(f"#define {name} sdk_{name}\n" for name in ("memcpy", "memmove", "memset", "memcmp"))


def on_this_machine(run: Run) -> None:
    """Each function, with sanitizers; those of memory.c by other names, beside the C library's."""
    asked = all_asked(run.setting.seed)
    shutil.copy(FUNCTIONS, run.place / "functions.c")
    shutil.copy(FUNCTIONS.with_name("sdk_functions-test.c"), run.place / "functions-test.c")
    written(run.place / "memory-here.c", f'{RENAMED}#include "memory.c"\n')
    more = f"MORE=-w memory-here.c {TOP}/sdk/division.c"
    command(["make", "-s", "-f", MAKEFILE, "CC=cc", more, "functions-test"], run.place).done()
    done = command([run.place / "functions-test"], data="".join(f"{one.rules} {one.data.hex()}\n" for one in asked)).done()
    differences(asked, came_in(done))


def came_in(text: str) -> list[Came]:
    """The ends and outputs of lines END OUTPUT."""
    rows = [line.split() for line in text.splitlines()]
    return [(end, bytes.fromhex(output.replace("-", ""))) for end, output in rows]


# ---- the same in Rust

TARGET = "riscv32im-unknown-none-elf"
CARGO = """[package]
name = "functions"
version = "0.1.0"
edition = "2021"

[[bin]]
name = "functions"
path = "functions.rs"

[dependencies]
contract = { path = "../sdk/rust" }

[profile.release]
panic = "abort"
"""
LINKED = '["-C", "link-arg=-Tcontract.ld", "-C", "link-arg=-zmax-page-size=16"]'


def in_rust(run: Run) -> list[FunctionCall]:
    """Makes a folder with the source, and copies the SDK. What is asked of C but for adding pieces to a digest."""
    (run.place / "functions").mkdir()
    written(run.place / "functions/Cargo.toml", CARGO)
    shutil.copy(FUNCTIONS.with_suffix(".rs"), run.place / "functions/functions.rs")
    shutil.copytree(TOP / "sdk", run.place / "sdk", ignore=shutil.ignore_patterns("target", "Cargo.lock"))
    return [one for one in all_asked(run.setting.seed) if one.data[0] in IN_RUST and one.data[:2] != bytes([Of.DIGEST, PIECES])]


def cargo(run: Run, *line: str, folder: str = "functions") -> str:
    """Runs cargo without the network and without what its user has set."""
    return command(["cargo", *line, "--quiet", "--offline", "--target-dir", run.place / "target"], run.place / folder).done()


def rust_on_this_machine(run: Run) -> None:
    """Each function in Rust, and the tests of sdk/rust."""
    asked = in_rust(run)
    cargo(run, "build")
    done = command([run.place / "target/debug/functions"], data="".join(f"{one.rules} {one.data.hex()}\n" for one in asked)).done()
    differences(asked, came_in(done))
    passed = re.findall("test result: ok. ([0-9]+) passed; 0 failed", cargo(run, "test", "--tests", folder="sdk/rust"))
    holds(sum(map(int, passed)) > 0, passed, "tests of sdk/rust that pass")


def rust_as_a_contract(run: Run) -> None:
    """Each function in Rust, as a contract."""
    library = command(["rustc", "--print", "target-libdir", "--target", TARGET])
    if library.status or not any(Path(library.out.strip()).glob("libcore*.rlib")):
        raise Lacks("Rust for the machine of contracts")
    asked = in_rust(run)
    cargo(run, "build", "--release", "--target", TARGET, "--config", f"target.{TARGET}.rustflags={LINKED}")
    command(["llvm-strip", "-o", "functions.elf", f"target/{TARGET}/release/functions"], run.place).done()
    differences_as_contracts(run, asked)


def cases() -> list[Case]:
    found = [Case("sdk: each function on this machine", on_this_machine, (Tool.CC, Tool.MAKE), cost=2)]
    for compiler, needs in NEEDS.items():
        found.append(Case(f"sdk: each function as a contract by {compiler}", partial(as_contracts, compiler=compiler), needs, cost=2))
        name = f"sdk: {PRODUCTS:,} products as a contract by {compiler}"
        found.append(Case(name, partial(many_products, compiler=compiler), needs, needs_speed=True, cost=3))
    found.append(Case("sdk: each function in Rust on this machine", rust_on_this_machine, (Tool.CARGO,), cost=6))
    return [*found, Case("sdk: each function in Rust as a contract", rust_as_a_contract, (Tool.CARGO, Tool.LLVM, Tool.LLD), cost=8)]
