"""Blocks over the caller's own storage: the examples over SQLite and LMDB, the header for C++, and random sequences of
right and wrong calls."""

import contextlib
import sqlite3
from collections.abc import Sequence
from functools import partial
from pathlib import Path

from gate.calls import command, tool_words
from gate.library import STRICT, folder
from gate.outside import FOLDER, last_lines
from gate.runner import TOP, Case, Run, Tool, holds, same
from gate.texts import field, storage

EXAMPLES, COUNTER = TOP / "examples/state", TOP / "examples/counter/counter.elf"
SANITIZERS = ("-g", "-fsanitize=address,undefined", "-fno-sanitize-recover=all")
KEYS, SEQUENCES = 10_000, 2_000


def compiled(run: Run, compiler: Sequence[str], *links: str | Path) -> Path:
    """A program over the archive, which the compiler builds without a warning."""
    done = command([*compiler, *STRICT, "-o", run.place / "program", links[0], folder(run) / "librvstm.a", *links[1:]])
    same((done.status, done.errors), (0, ""), "the compiler")
    return run.place / "program"


def by_tool(run: Run, name: str, words: Sequence[str]) -> None:
    """A developers' command over the program finds nothing that differs."""
    done = command([*tool_words(name), run.program, *words])
    holds(done.status == 0, last_lines(done.out + done.errors), "no difference")
    run.note(last_lines(done.out, 1))


def rows_of(database: Path) -> dict[str, str]:
    """The storage in a database of examples/state/sqlite.c."""
    with contextlib.closing(sqlite3.connect(database)) as connection:
        return {key.hex(): field(value.hex()) for key, value in connection.execute("SELECT key, value FROM state")}


def from_outside(run: Run, compiler: Sequence[str], source: str, library: str) -> None:
    """Blocks under all rules: the calls of each are those that a model in Python says, and so is the storage."""
    program = compiled(run, compiler, EXAMPLES / source, f"-l{library}")
    for block in sorted([*FOLDER.glob("rules2/*/block"), *FOLDER.glob("rules3/*/block")]):
        wanted, database = block.with_name("result").read_text(encoding="utf-8"), run.place / "database"
        came = command([program, database], block.parent, block.read_bytes()).done()
        calls = [[line for line in text.splitlines() if not line.startswith("store ")] for text in (came, wanted)]
        same(calls[0], calls[1], str(block.parent))
        touched, whole = storage(came), storage(wanted)
        same(touched, {key: value for key, value in whole.items() if key in touched}, str(block.parent))
        if library == "sqlite3":
            same(rows_of(database), whole, f"the database of {block.parent}")
        database.unlink()


def in_cpp(run: Run) -> None:
    """Owners, faults and exceptions of rvstm.hpp, without a leak."""
    command([compiled(run, ["c++", "-std=c++17", *SANITIZERS], Path(__file__).with_name("blocks.cpp")), COUNTER]).done()


def random_sequences(run: Run) -> None:
    """Each status, each struct and the heap are as a model in C says."""
    by_tool(run, "misuse", [str(SEQUENCES), str(run.setting.seed)])


def cases() -> list[Case]:
    found = []
    databases = {
        "sqlite": ("cc", "sqlite.c", "sqlite3", Tool.LIBSQLITE), "lmdb": ("c++ -std=c++17", "lmdb.cpp", "lmdb", Tool.LIBLMDB),
    }
    for name, (compiler, source, library, tool) in databases.items():
        outside = partial(from_outside, compiler=compiler.split(), source=source, library=library)
        beside_seq = partial(by_tool, name="state", words=[str(KEYS), "--only", name])
        needs = (Tool.CC, Tool.CPP, Tool.NM, tool)
        found += [
            Case(f"blocks: from outside over {name}", outside, needs, needs_library=True, cost=2),
            Case(f"blocks: {KEYS:,} keys in {name}", beside_seq, needs, needs_library=True, cost=3),
        ]
    return [
        *found,
        Case("blocks: rvstm.hpp", in_cpp, (Tool.CPP,), needs_library=True, cost=3),
        Case("blocks: random sequences of calls", random_sequences, (Tool.CC, Tool.NM), needs_library=True, cost=6),
    ]
