"""What an author does first: a new folder, whose test, random calls and coverage pass at once, and a bug that random
calls find; and programs of others that tools read."""

import re
import struct
import time
from functools import partial
from pathlib import Path

from gate.calls import command, tool
from gate.runner import CONTRACTS, TOP, Case, Lacks, Run, Tool, holds, same
from gate.texts import written

SECTION_SIZE, SYMBOL_SIZE = 40, 16  # bytes, of a header and of a row in an ELF file of 32 bits
SECONDS_TO_REFUSE = 20
PASSED = "1 test: 1 passed, 0 failed; 4 calls, 12 expectations, 0 not met"
NO_LIBRARIES = "Rust has no libraries for "
BUGS = {
    "votes.c": ("__builtin_add_overflow(amount_at(account), amount, &sum)", "(sum = amount_at(account) + amount, 0)"),
    "src/main.rs": ("amount_at(account)?.checked_add(amount)", "Some(amount_at(account)?.wrapping_add(amount))"),
}
"""Of each source what is put in place of what: an amount wraps."""


PARTS = {"votes.c": ("#include", "parts.h", '#include "parts.h"\n'), "src/main.rs": ("use contract", "src/parts.rs", 'include!("parts.rs");\n')}
"""Of each source before which text it is cut, the file that has the rest then, and the line that takes it in."""
ENDS = {
    "votes.c": ('REVERT("unknown request")', 'REVERT("no request")'),
    "src/main.rs": ('return Err("unknown request")', 'panic!("no request")'),
}
"""Of each source a line at which a call reverts, and what is put there."""
SECOND = {"votes.c": "second.c", "src/main.rs": "src/bin/second.rs"}


def new_contract(run: Run, source: str, options: tuple[str, ...] = ()) -> None:
    """A new contract passes its test, its random calls and its coverage. With a bug random calls break a rule."""
    folder = run.place / "votes"
    made = tool(run, "new", folder, *options)
    if made.status and (NO_LIBRARIES in made.errors or " not found; " in made.errors):
        raise Lacks("Rust for the machine of contracts")
    same(made.done().splitlines()[-1], f"built {folder}/votes.elf; `make` in {folder} builds it again and runs its test")
    if source == "votes.c":  # an editor finds the headers
        flags = (folder / "compile_flags.txt").read_text(encoding="utf-8").splitlines()
        same(command(["clang", "-fsyntax-only", *flags, source], folder).errors, "")
    more = {"RVSTM": str(run.program), "EXPLORE": "--seed 1 --strict --calls 100"}
    same(command(["make", "-s"], folder, more=more).done().splitlines()[-1], PASSED)
    made_again(folder, source, more)
    covered = tool(run, "coverage", "votes.list", folder=folder).done()
    holds(bool(re.search(rf"^{source}: lines \d+ of \d+", covered, re.M)), covered, f"lines of {source}")
    explored = command(["make", "-s", "ci"], folder, more=more).done()
    same(explored.splitlines()[-1], "nothing is broken")
    holds(bool(re.search(rf"^{source}: lines \d+ of \d+.*\n +not ", explored, re.M)), explored, "branches that no call reached")
    holds('tests="2" failures="0"' in (folder / "tests.xml").read_text(encoding="utf-8"), "tests.xml", "two tests")
    text = (folder / source).read_text(encoding="utf-8")
    right, wrong = BUGS[source]
    same(text.count(right), 1, right)
    (folder / source).write_text(text.replace(right, wrong), encoding="utf-8")
    broken = command(["make", "-s", "ci"], folder, more=more)
    same(broken.status, 2, "make ci with a bug")
    holds("line 11: returned number(output)" in broken.out, broken.out, "the line that is broken")


def made_again(folder: Path, source: str, more: dict[str, str]) -> None:
    """`make` fails at once if only a file that the source takes in has a bug; it builds and tests a second contract."""
    path, text = folder / source, (folder / source).read_text(encoding="utf-8")
    begin, parts, line = PARTS[source]
    head, _, rest = text.partition(begin)
    path.write_text(head + line, encoding="utf-8")
    written(folder / parts, begin + rest)
    same(command(["make", "-s"], folder, more=more).done().splitlines()[-1], PASSED)
    right, wrong = ENDS[source]
    written(folder / parts, (begin + rest).replace(right, wrong))
    failed = command(["make", "-s"], folder, more=more)
    same((failed.status, failed.out.splitlines()[-1]), (2, "1 test: 0 passed, 1 failed; 4 calls, 12 expectations, 1 not met"))
    number = (begin + rest).partition(right)[0].count("\n") + 1
    ended = f"        ended   reverted at {Path(parts).name}:{number} in "
    holds(f"\n{ended}" in failed.out, failed.out, ended)
    path.write_text(text, encoding="utf-8")
    second = folder / SECOND[source]
    second.parent.mkdir(exist_ok=True)
    written(second, text)
    votes = (folder / "votes.list").read_text(encoding="utf-8")
    written(folder / "second.list", votes.replace("program votes votes.elf", "program votes second.elf"))
    both = command(["make", "-s"], folder, more=more).done().splitlines()
    same(both[-1], "2 tests: 2 passed, 0 failed; 8 calls, 24 expectations, 0 not met")
    second.unlink()
    stale = command(["make", "-s", "-n"], folder, more=more).errors
    holds("no source here makes" in stale and "second.elf" in stale, stale, "a program without a source")
    written(second, text)


def too_long(run: Run) -> None:
    """A value that is too long for the rules: the test says so, with the line and its size."""
    written(run.place / "long.c", '#include "contract.h"\nvoid contract(const u8 *input, u32 length) {\n    storage_write(input, input, 88);\n}\n')
    written(run.place / "long.list", "program long long.elf\ncall long 900 key:a\nexpect returned\n")
    command(["make", "-s", "-f", TOP / "sdk/Makefile", "long.elf", "long.lines.elf"], run.place).done()
    came = tool(run, "test", "long.list", folder=run.place).out
    wanted = "        ended   bad-length at long.c:3 in contract, gas N: a WRITE of 88 bytes: at most 64 under rules 1\n"
    holds(wanted in re.sub(r"gas \d+:", "gas N:", came), came, wanted)


def with_symbol(program: bytes, name: bytes, header_size: int = SECTION_SIZE, sections: int = 4) -> bytes:
    """A program with one function in its symbols. Its header says how many sections it has, and their size."""
    names_at, symbols_at = len(program), len(program) + len(name) + 2
    table = symbols_at + SYMBOL_SIZE
    rows = [
        (0,) * 10, (0, 1, 6, *(0,) * 7), (0, 2, 0, 0, symbols_at, SYMBOL_SIZE, 3, 0, 4, SYMBOL_SIZE),
        (0, 3, 0, 0, names_at, symbols_at - names_at, 0, 0, 1, 0),
    ]
    head = program[:32] + struct.pack("<I", table) + program[36:46] + struct.pack("<HHH", header_size, sections, 0) + program[52:]
    symbol = struct.pack("<IIIBBH", 1, 0x10000, 0, 0x12, 0, 1)
    return head + b"\0" + name + b"\0" + symbol + b"".join(struct.pack("<10I", *row) for row in rows)


def programs_of_strangers(run: Run) -> None:
    """Names of functions and lines of lists are printed without escape sequences. Wrong sections are refused."""
    counter, path = (TOP / "examples/counter/counter.elf").read_bytes(), run.place / "a.elf"
    (run.place / "a.list").write_text('program a a.elf\ncall a 900 key:1\nexpect returned "\x1b[31m"\n', encoding="utf-8")
    (run.place / "a.block").write_text(f"rvblock 1\nprogram 0 a.elf\ncall 0 900 {1:064x}\n", encoding="utf-8")
    path.write_bytes(with_symbol(counter, b"\x1b[31mred"))
    for came, wanted in (
        (tool(run, "trace", "a.block", "--call", "0", folder=run.place).done(), "\\x1b[31mred"),
        (tool(run, "test", "a.list", folder=run.place).out, 'expect returned "\\x1b[31m"'),
    ):
        holds(wanted in came and "\x1b" not in came, came, wanted)
    path.write_bytes(with_symbol(counter, b"a", 0, 0xFFFF))
    began = time.monotonic()
    refused = "trace: a.elf: not an ELF file of 32 bits, or only a part of one"
    same(tool(run, "trace", "a.block", "--call", "0", folder=run.place).errors.splitlines()[-1], refused)
    holds(time.monotonic() - began < SECONDS_TO_REFUSE, time.monotonic() - began, f"at most {SECONDS_TO_REFUSE} seconds")


def cases() -> list[Case]:
    needs = (*CONTRACTS, Tool.LLVM)
    return [
        Case("programs of strangers", programs_of_strangers),
        Case("a value that is too long", too_long, needs, cost=2),
        Case("a new contract in C", partial(new_contract, source="votes.c"), needs, cost=5),
        Case("a new contract in Rust", partial(new_contract, source="src/main.rs", options=("--rust",)), (Tool.LLVM, Tool.MAKE), seconds=300, cost=20),
    ]
