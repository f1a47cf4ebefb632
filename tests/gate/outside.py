"""Cases from outside (tests/cases, whose README says where the values come from), and what is made at random."""

import json
import struct
from collections.abc import Callable, Iterator, Sequence
from functools import partial
from pathlib import Path
from typing import Any

from gate import waits
from gate.calls import command, rvstm, tool_words
from gate.runner import TOP, Case, Run, holds, same
from gate.texts import GivenCall, block, ends, field, mixed, receipts, storage, written

FOLDER = TOP / "tests/cases"
WORKERS = (1, 2, 4, 8, 32)
PROGRAMS_A_BLOCK = 64
STEPS_OF_A_REPLAY = 500
ONE_IN = 4
"""Of so many blocks one is given to the model of waits, which replays each call step by step."""
RANDOM_SECONDS = 10
NO_ADDRESS = "00000000"
"""No instruction is here, so a replay that goes to it goes to the end of the call."""


def json_of(path: Path) -> Any:
    """What a JSON file has; each case says what it looks for in it."""
    return json.loads(path.read_text(encoding="utf-8"))


def rows(path: Path, separator: str, count: int) -> list[list[str]]:
    """The first fields of each line of a table."""
    return [line.split(separator)[:count] for line in path.read_text(encoding="utf-8").splitlines()]


def by_seq(run: Run, text: str, folder: Path = FOLDER) -> str:
    return rvstm(run, "seq", written(run.place / "case.block", text), folder=folder).done()


# ---- contracts and blocks


def contract(run: Run, name: str) -> None:
    """The calls of a contract, each with its end and output, and the storage that they leave."""
    data = json_of(FOLDER / f"contracts/{name}.json")
    groups = [{"name": one["name"], "start": {}, "calls": [one]} for one in data.get("cases", [])] + data.get("sequences", [])
    for group in groups:
        calls = [GivenCall(0, one["gas"], one["input"]) for one in group["calls"]]
        result = by_seq(run, block([f"contracts/{data['program']}.elf"], calls, group["start"]))
        same(ends(result), [(one["end"], field(one["output"])) for one in group["calls"]], group["name"])
        if "final" in group:
            same(storage(result), {key: field(value) for key, value in group["final"].items()}, group["name"])


def block_in_order(run: Run, name: str) -> None:
    """A block of 200 calls in order."""
    result = rvstm(run, "seq", f"blocks/{name}.block", folder=FOLDER).done()
    wanted = json_of(FOLDER / f"blocks/{name}.expect.json")
    same(ends(result), [(end, field(output)) for end, output in wanted["calls"]])
    same(storage(result), {key: field(value) for key, value in wanted["final"].items()})


def block_by_workers(run: Run, name: str) -> None:
    """The same block by threads, and along mixed schedules that are doubled until the workers are done."""
    path = f"blocks/{name}.block"
    wanted = rvstm(run, "seq", path, folder=FOLDER).done()
    for workers in WORKERS:
        same(rvstm(run, "run", path, "--workers", str(workers), folder=FOLDER).done(), wanted, f"{workers} workers")
    for workers in (2, 8):
        entries, done = 4_000, None
        while done is None or "NotDone" in done.errors:
            schedule = written(run.place / "schedule", mixed(workers, entries))
            done = rvstm(run, "drive", path, "--workers", str(workers), "--schedule", schedule, folder=FOLDER)
            entries *= 2
        same(done.done(), wanted, f"drive, {workers} workers")


def block_waits(run: Run, names: Sequence[str]) -> None:
    """What `conflicts` prints of blocks, beside a model in Python."""
    for name in names:
        waits.check(run.program, FOLDER / name)


def whole_results(run: Run, names: Sequence[str]) -> None:
    """Blocks under rules two and three: the whole text in order, by threads, along a mixed schedule, migrated."""
    schedule = written(run.place / "schedule", mixed(3, 20_000))
    for name in names:
        folder = FOLDER / name
        wanted, migrated = (folder / "result").read_text(encoding="utf-8"), run.place / "migrated"
        ways: list[list[str | Path]] = [["seq", "block"], ["drive", "block", "--workers", "3", "--schedule", schedule]]
        ways += [["run", "block", "--workers", str(workers)] for workers in (1, 4, 32)]
        done = rvstm(run, "migrate", "block", "--out", migrated, folder=folder)
        if (folder / "migrated").is_file():
            done.done()
            same(migrated.read_text(encoding="utf-8"), (folder / "migrated").read_text(encoding="utf-8"), f"{name} migrated")
            ways.append(["seq", migrated])
        else:
            done.refused("rvstm: block 1 BadHeader 1")
        for words in ways:
            same(rvstm(run, *words, folder=folder).done(), wanted, f"{name} by {words[0]}")


# ---- programs of every instruction


def torture(run: Run, names: Sequence[str]) -> None:
    """The bytes that programs return, the programs that their sources are assembled to, and their replays."""
    expected: dict[str, str] = json_of(FOLDER / "torture/expected.json")
    for name in names:
        text = block([f"torture/{name}.elf"], [GivenCall()])
        result = by_seq(run, text)
        same(ends(result), [("returned", expected[name])], name)
        made = run.place / "made.elf"
        rvstm(run, "asm", FOLDER / f"torture/{name}.s", "--out", made).done()
        holds(made.read_bytes() == (FOLDER / f"torture/{name}.elf").read_bytes(), "other bytes", f"those of {name}.elf")
        replay(run, name, expected[name], next(line for line in result.splitlines() if line.startswith("regs ")))


def replay(run: Run, name: str, output: str, registers: str) -> None:
    """A replay to the end of a call, at once and step by step: registers, the output in memory, and back again."""
    path, words = run.place / "case.block", registers.split(" ")[1:]

    def debugged(*lines: str) -> list[str]:
        text = "".join(f"{line}\n" for line in lines)
        return rvstm(run, "debug", path, "--call", "0", folder=FOLDER, data=text).done().splitlines()

    there = debugged(f"g {NO_ADDRESS}", "r", "s", f"m {words[10]} {int(words[11], 16)}")
    same(there[1:], [registers, "refused AtEnd 2", field(output)], name)
    steps = min(int(there[0].split(" ")[0]), STEPS_OF_A_REPLAY)
    walked = debugged(*["s"] * steps, "b", "w")
    same([int(line.split(" ")[0]) for line in walked], [*range(1, steps + 1), steps - 1, steps - 1], f"the moments of {name}")


def images(run: Run) -> None:
    """ELF files as real tools write them: the fault of each, or a result."""
    for name, fault, number in rows(FOLDER / "images/TABLE", " ", 3):
        path = written(run.place / "case.block", block([f"images/{name}"], [GivenCall(gas=1)]))
        done = rvstm(run, "seq", path, folder=FOLDER)
        if fault == "ok":
            same(done.done().splitlines()[-1], "end", name)
        else:
            done.refused(f"rvstm: elf {fault} {number}")


# ---- words


def program_of(words: Sequence[int]) -> bytes:
    size = 4 * len(words)
    ident = b"\x7fELF\1\1\1" + bytes(9)
    header = struct.pack("<HHIIIIIHHHHHH", 2, 243, 1, 0x10000, 52, 0, 0, 52, 32, 1, 0, 0, 0)
    segment = struct.pack("<IIIIIIII", 1, 84, 0x10000, 0x10000, size, size, 5, 4)
    return ident + header + segment + struct.pack(f"<{len(words)}I", *words)


def texts_of_words(run: Run) -> None:
    """2,500 words: the text of each, and the word again from its text."""
    table = [(int(word, 16), text) for word, text in rows(FOLDER / "disasm/words.tsv", "\t", 2)]
    elf, made = run.place / "words.elf", run.place / "made.elf"
    elf.write_bytes(program_of([word for word, _ in table]))
    listing = "".join(f"{0x10000 + 4 * n:08x} {word:08x} {text}\n" for n, (word, text) in enumerate(table))
    same(rvstm(run, "dis", elf).done(), listing)
    source = written(run.place / "words.s", "".join(f"{text}\n" for _, text in table))
    rvstm(run, "asm", source, "--out", made).done()
    holds(made.read_bytes() == elf.read_bytes(), "other words from their texts", "the same ones")


def legal_words(run: Run) -> None:
    """A word without a text of an instruction ends a call as illegal before it is charged; fences are legal."""
    table = [(int(word, 16), text) for word, text in rows(FOLDER / "disasm/words.tsv", "\t", 2)]
    for at in range(0, len(table), PROGRAMS_A_BLOCK):
        part = table[at : at + PROGRAMS_A_BLOCK]
        for number, (word, _) in enumerate(part):
            (run.place / f"{number}.elf").write_bytes(program_of([word]))
        calls = [GivenCall(number, 1000) for number in range(len(part))]
        came = receipts(by_seq(run, block([f"{number}.elf" for number in range(len(part))], calls), run.place))
        for (word, text), receipt in zip(part, came, strict=True):
            is_legal = word & 0x707F == 0x000F or not text.startswith(".word")
            is_illegal = (receipt.end, receipt.gas) == ("illegal", 0)
            holds(is_legal != is_illegal, f"{receipt.end} after gas {receipt.gas} for {word:08x} {text}", "legal" if is_legal else "illegal")


# ---- at random


def fuzzed(run: Run) -> None:
    run.note(f"seed {run.setting.seed}")
    done = command([*tool_words("fuzz"), run.program, str(RANDOM_SECONDS), str(run.setting.seed)])
    holds(done.status == 0, last_lines(done.out + done.errors), "status 0")
    run.note(last_lines(done.out, 1))


def stressed(run: Run) -> None:
    """Random blocks and sessions by random numbers of workers."""
    run.note(f"seed {run.setting.seed}")
    done = command([*tool_words("stress"), run.program, FOLDER, str(RANDOM_SECONDS), str(run.setting.seed)])
    holds(done.status == 0, last_lines(done.out + done.errors), "status 0")
    run.note(last_lines(done.out, 1))


def last_lines(text: str, count: int = 3) -> str:
    """The last lines of a text as one."""
    return " | ".join(text.strip().splitlines()[-count:])


def chunks(names: Sequence[str], size: int) -> Iterator[Sequence[str]]:
    return (names[at : at + size] for at in range(0, len(names), size))


def cases() -> list[Case]:
    of = "from outside:"
    found = [
        Case(f"{of} images", images, cost=2),
        Case(f"{of} texts of 2,500 words", texts_of_words, cost=1),
        Case(f"{of} which words are legal", legal_words, cost=3),
    ]

    def each(what: str, call: Callable[..., None], names: Sequence[str], cost: float) -> list[Case]:
        return [Case(f"{of} {what} {name}", partial(call, name=name), cost=cost) for name in names]

    def parts(what: str, call: Callable[..., None], names: Sequence[str], size: int, cost: float) -> list[Case]:
        named = [(f"{of} {what} {part[0]} to {part[-1]}", part) for part in chunks(names, size)]
        return [Case(name, partial(call, names=part), cost=cost) for name, part in named]

    whole = sorted(f"{rules}/{path.name}" for rules in ("rules2", "rules3") for path in (FOLDER / rules).iterdir())
    blocks = sorted(path.stem for path in (FOLDER / "blocks").glob("*.block"))
    found += each("contract", contract, sorted(path.stem for path in (FOLDER / "contracts").glob("*.json")), 2)
    found += each("block in order", block_in_order, blocks, 1)
    found += each("block by workers", block_by_workers, blocks, 6)
    found += parts("whole results", whole_results, whole, 10, 4)
    found += parts("waits", block_waits, [f"blocks/{name}.block" for name in blocks], 1, 6)
    found += parts("waits", block_waits, [f"{name}/block" for name in whole[::ONE_IN]], 5, 4)
    found += parts("instructions", torture, sorted(path.stem for path in (FOLDER / "torture").glob("*.s")), 7, 3)
    found.append(Case("at random: damaged files", fuzzed, cost=RANDOM_SECONDS, needs_speed=True))
    found.append(Case("at random: blocks and sessions by workers", stressed, cost=RANDOM_SECONDS))
    return found
