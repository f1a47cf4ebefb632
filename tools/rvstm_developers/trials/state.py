import argparse
import os
import random
import re
import subprocess
import time
from collections.abc import Iterable, Sequence
from pathlib import Path
from typing import NamedTuple

from rvstm_developers import blocks, options, running, texts
from rvstm_developers.bench import tables
from rvstm_developers.running import Word
from rvstm_developers.texts import TOP, word
from rvstm_tools.errors import UserError
from rvstm_tools.options import Command, argument

FEW, MANY, TRANSFERS = 10_000, 10_000_000, 1_000
KEYS_AT_ONCE = 100_000
MOST_GROWTH = 1.05
EXAMPLES, TOKEN = TOP / "examples/state", TOP / "examples/token"
DATABASES: dict[str, tuple[list[Word], list[Word]]] = {
    "sqlite": ([*blocks.IN_C], [EXAMPLES / "sqlite.c", "-lsqlite3"]),
    "lmdb": (["c++", "-std=c++17", *blocks.STRICT], [EXAMPLES / "lmdb.cpp", "-llmdb"]),
}
HEAD = "rvblock 1\n"
HEAP = re.compile(r"heap: (\d+) bytes at most, 0 blocks left")
COLUMNS = ("database", "keys", "filled in, s", "MiB", f"{TRANSFERS:,} transfers, s", "bytes of the block")


class DriverRun(NamedTuple):
    printed: str
    seconds: float
    heap: int


def account(number: int) -> bytes:
    return number.to_bytes(8, "big") + bytes(12)


def store_line(number: int) -> str:
    """The account of a number, with a row of examples/token as its key."""
    return f"store {(b'acct' + account(number) + bytes(7)).hex()}14 {word(1_000 + number % 1_000, 8).hex()}\n"


def transfers(step: int) -> tuple[list[int], str]:
    """The accounts that take part, all multiples of the step, and the calls: those of token.block, and transfers."""
    choice = random.Random(1)
    pairs = [choice.sample(range(0, FEW * step, step), 2) for _ in range(TRANSFERS)]
    inputs = [word(1) + account(one) + account(other) + word(choice.randrange(100), 8) for one, other in pairs]
    lines = (TOKEN / "token.block").read_text(encoding="utf-8").splitlines()
    own = [line for line in lines if line.startswith("call ")]
    calls = ["program 0 token.elf", *own, *(f"call 0 5000 {data.hex()}" for data in inputs)]
    return sorted({number for pair in pairs for number in pair}), texts.lines_of(calls)


def run_block(program: Path, database: Path, parts: Iterable[str]) -> DriverRun:
    """Hands a block file in, part by part."""
    began = time.perf_counter()
    words, environment, pipe = [program, database], {**os.environ, "HEAP_COUNTS": "1"}, subprocess.PIPE
    with subprocess.Popen(
        words, cwd=TOKEN, env=environment, stdin=pipe, stdout=pipe, stderr=pipe, encoding="utf-8"
    ) as process:
        assert process.stdin is not None
        for part in parts:
            process.stdin.write(part)
        printed, said = process.communicate()
    heap = HEAP.search(said)
    if process.returncode or heap is None:
        raise UserError(f"{program.name} ended with status {process.returncode}: {said.strip()}")
    return DriverRun(printed, time.perf_counter() - began, int(heap[1]))


def check(rvstm: Path, place: Path, stores: str, calls: str, came: str) -> str:
    """Ends the command if `seq` prints something else over what is stored. Returns the storage that it prints."""
    (place / "dump.block").write_text(HEAD + calls.replace("\n", f"\n{stores}", 1), encoding="utf-8")
    wanted = running.output_of([rvstm, "seq", place / "dump.block"], TOKEN).decode()
    if came != wanted:
        pairs = zip(came.splitlines() + [""], wanted.splitlines() + [""])
        line, other = next((pair for pair in pairs if pair[0] != pair[1]), ("the end", "more"))
        raise UserError(f"a result differs from that of seq: {line}, and not {other}"[:400])
    return texts.lines_of(line for line in wanted.splitlines() if line.startswith("store "))


def row(rvstm: Path, place: Path, name: str, keys: int) -> tuple[list[str], int]:
    """Fills a database, and runs a block twice. Returns the cells of a row, and the bytes of the first block."""
    compiler, links = DATABASES[name]
    program, database = blocks.counted(place, compiler, links, f"state-{name}"), place / f"{name}-{keys}"
    firsts = range(0, keys, KEYS_AT_ONCE)
    parts = ("".join(map(store_line, range(first, min(first + KEYS_AT_ONCE, keys)))) for first in firsts)
    filled = run_block(program, database, [HEAD])
    filled = run_block(program, database, (part for more in ([HEAD], parts) for part in more))
    numbers, calls = transfers(keys // FEW)
    once = run_block(program, database, [HEAD, calls])
    stores = check(rvstm, place, "".join(map(store_line, numbers)), calls, once.printed)
    check(rvstm, place, stores, calls, run_block(program, database, [HEAD, calls]).printed)
    cells = [name, f"{keys:,}", f"{filled.seconds:.1f}", f"{database.stat().st_size >> 20}", f"{once.seconds:.2f}"]
    database.unlink()
    return [*cells, f"{once.heap:,}"], once.heap


def run(given: argparse.Namespace) -> int:
    names: Sequence[str] = [given.only] if given.only else list(DATABASES)
    tables.print_head(COLUMNS)
    with texts.new_folder() as place:
        for name in names:
            cells, few = row(given.rvstm, place, name, FEW)
            tables.print_row(cells)
            if given.keys > FEW:
                cells, many = row(given.rvstm, place, name, given.keys)
                tables.print_row(cells)
                if many > MOST_GROWTH * few:
                    raise UserError(f"a block takes {many:,} bytes over {given.keys:,} keys, and {few:,} over {FEW:,}")
    return 0


COMMAND = Command(
    "Runs blocks of token transfers over databases of SQLite and LMDB, by the programs of examples/state.",
    "crates/rvstm/out/rvstm 1000000",
    run,
    (
        options.RVSTM,
        argument("keys", metavar="KEYS", type=int, nargs="?", default=MANY, help=f"of the large database ({MANY:,})"),
        argument("--only", choices=sorted(DATABASES), help="one database alone"),
    ),
    details=f"""
It builds each program, fills a database with {FEW:,} keys and one with KEYS, and runs a block of {TRANSFERS:,} transfers twice.
Each result has to be what `rvstm seq` prints over the keys that are touched, byte for byte, and the second block has to
find what the first one changed. The library's heap is counted: over many keys a block may take 5 % more bytes than over
few. Needs libsqlite3-dev and liblmdb-dev, and 2 GB of disk for {MANY:,} keys.
""",
)
