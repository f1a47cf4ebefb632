import argparse
import functools
import itertools
import json
import subprocess
import sys
from collections.abc import Callable, Iterator, Sequence
from dataclasses import dataclass
from pathlib import Path
from typing import NamedTuple

from rvstm_developers import options, texts
from rvstm_developers.large import blocks, sessions
from rvstm_developers.large import texts as long_texts
from rvstm_developers.large.trial import USUAL_STACK, Trial
from rvstm_developers.models.machine import MachineBlock
from rvstm_tools.options import Command, argument
from rvstm_tools.texts import differences

WORKERS = (1, 5, 32)
IN_TURN = ("300 calls on seven keys", "1,024 calls on one key", "64 programs, 1,024 calls")  # blocks that `drive` also runs with workers in turn
BY_WORKERS = ("1,024 calls on one key", "frames of many calls and of few")  # sessions that threads run, too
BY_PARTS = ("frames of many calls and of few",)  # those whose file is taken over with other numbers of workers
PARTS_WORKERS = ("32", "1", "5", "")
MANY_SECONDS = 600
LEAST_STACK, STACK_STEP = 16, 4  # KiB
SHOWN_BEFORE = 80  # bytes that are shown before and after the place where an output differs

# Started again for each run: a process that Python starts begins with the most memory that its parent had.
LAUNCHER = """import json, os, resource, signal, sys, time
stack, seconds, usage, *words = sys.argv[1:]
begin = time.monotonic()
started = os.posix_spawn("/bin/sh", ["sh", "-c", 'ulimit -s "$0"; exec "$@"', stack, *words], {})
signal.signal(signal.SIGALRM, lambda *_: os.kill(started, signal.SIGKILL))
signal.alarm(int(seconds))
_, status, used = os.wait4(started, 0)
spent = time.monotonic() - begin
with open(usage, "w") as file:
    json.dump([os.waitstatus_to_exitcode(status), spent, used.ru_utime + used.ru_stime, used.ru_maxrss / 1024], file)
"""


class Usage(NamedTuple):
    """How a process ended: its status, the seconds by the clock and of the processor, and the most memory in MiB."""

    status: int
    seconds: float
    processor: float
    memory: float


@dataclass(frozen=True)
class StackRow:
    command: str
    wanted: Callable[[MachineBlock], bytes]
    options: tuple[str, ...] = ()


STACK_ROWS = (
    StackRow("seq", MachineBlock.result),
    StackRow("run", MachineBlock.result, ("--workers", "1")),
    StackRow("run", MachineBlock.result, ("--workers", "32")),
    StackRow("conflicts", MachineBlock.conflicts),
)


class Bench:
    """A folder in which the program runs, and how many rows passed and failed."""

    def __init__(self, rvstm: Path, place: Path) -> None:
        self.rvstm, self.place, self.passed, self.failed = rvstm, place, 0, 0

    def write(self, trial: Trial) -> None:
        for name, content in trial.files.items():
            (self.place / name).write_bytes(content)

    def run(self, trial: Trial, stack: int) -> Usage:
        """Runs the program. Its output and its refusal are in two files."""
        (self.place / "input").write_bytes(trial.input)
        launch = [sys.executable, "-S", "-c", LAUNCHER, str(stack), str(MANY_SECONDS), "usage", str(self.rvstm), *trial.words]
        with (
            open(self.place / "input", "rb") as given, open(self.place / "output", "wb") as out,
            open(self.place / "errors", "wb") as errors,
        ):
            subprocess.run(launch, cwd=self.place, stdin=given, stdout=out, stderr=errors, check=True)
        return Usage(*json.loads((self.place / "usage").read_text(encoding="utf-8")))

    def fault_of(self, trial: Trial, usage: Usage) -> str:
        errors = (self.place / "errors").read_bytes()
        if usage.status != trial.status or errors != trial.errors:
            return f"status {usage.status} {errors[:200]!r}, and not {trial.status} {trial.errors!r}"
        if trial.wanted is None:
            return ""
        came = (self.place / (trial.file or "output")).read_bytes()
        return "" if came == trial.wanted else difference(came, trial.wanted)

    def tell(self, name: str, fault: str, measured: str) -> None:
        self.passed += not fault
        self.failed += bool(fault)
        print(f"{'failed' if fault else 'passed'}  {name}: {measured}" + (f"; {fault}" if fault else ""), flush=True)

    def row(self, name: str, trial: Trial) -> None:
        self.write(trial)
        usage = self.run(trial, trial.stack)
        measured = f"{usage.seconds:.2f} s, {usage.processor:.2f} s of the processor, {usage.memory:.0f} MiB"
        self.tell(name, self.fault_of(trial, usage), measured)

    def least_stack(self, name: str, trial: Trial) -> None:
        """Looks for the least stack with which a run prints the same, in KiB."""
        self.write(trial)
        low, high = LEAST_STACK, USUAL_STACK
        fault = self.fault_of(trial, self.run(trial, high))
        while not fault and low + STACK_STEP < high:
            middle = (low + high) // 2
            is_short = self.fault_of(trial, self.run(trial, middle))
            low, high = (middle, high) if is_short else (low, middle)
        self.tell(name, fault, f"{high} KiB of {USUAL_STACK} serve, {low} do not")


class LargeRow(NamedTuple):
    name: str
    make: Callable[[], Trial]
    tell: Callable[[str, Trial], None]


def difference(came: bytes, wanted: bytes) -> str:
    place = differences.place_of(wanted, came)
    part = slice(max(place - SHOWN_BEFORE, 0), place + SHOWN_BEFORE)
    return f"at byte {place} of {len(came)} and {len(wanted)}: {came[part]!r} and not {wanted[part]!r}"


# ---- rows of blocks and sessions


def block_files(name: str) -> dict[str, bytes]:
    block = blocks.made(name)
    files = {f"{number}.elf": program.file for number, program in enumerate(block.programs)}
    return files | {"block": block.text(files)}


def by(words: Sequence[str], wanted: Callable[[MachineBlock], bytes], name: str) -> Trial:
    return Trial(list(words), wanted(blocks.made(name)), files=block_files(name))


def by_drive(workers: int, missing: int, name: str) -> Trial:
    """A block along a schedule: the exact one of one worker, one that is a line short, or workers in turn."""
    steps = blocks.made(name).steps_by_one()
    turns = itertools.islice(itertools.cycle(range(workers)), steps - missing if workers == 1 else 8 * steps)
    files = block_files(name) | {"schedule": texts.lines_of(turns).encode()}
    words = ["drive", "block", "--workers", str(workers), "--schedule", "schedule"]
    if missing:
        return Trial(words, b"", b"rvstm: drive NotDone 1\n", 1, files=files)
    return Trial(words, blocks.made(name).result(), files=files)


def rows_of_block(bench: Bench, name: str) -> Iterator[LargeRow]:
    yield LargeRow(f"{name}, seq", functools.partial(by, ["seq", "block"], MachineBlock.result, name), bench.row)
    yield LargeRow(f"{name}, conflicts", functools.partial(by, ["conflicts", "block"], MachineBlock.conflicts, name), bench.row)
    for workers in WORKERS:
        make = functools.partial(by, ["run", "block", "--workers", str(workers)], MachineBlock.result, name)
        yield LargeRow(f"{name}, run by {workers}", make, bench.row)
    yield LargeRow(f"{name}, drive by 1", functools.partial(by_drive, 1, 0, name), bench.row)
    yield LargeRow(f"{name}, drive by 1, a line short", functools.partial(by_drive, 1, 1, name), bench.row)
    if name in IN_TURN:
        yield LargeRow(f"{name}, drive by 5", functools.partial(by_drive, 5, 0, name), bench.row)


def session_words(name: str, *more: str) -> list[str]:
    return [*sessions.settings_of(name).words(), *more]


def whole_session(workers: Sequence[str], name: str) -> Trial:
    parts = sessions.made(name)
    answers, given = b"".join(part.answers for part in parts), b"".join(part.text for part in parts)
    return Trial(session_words(name, *workers), answers, input=given)


def kept_session(bench: Bench, number: int, workers: Sequence[str], name: str) -> Trial:
    """One part of a session in a file, which the parts before have left there. The first one begins the file."""
    if number == 0:
        for file in bench.place.glob("store*"):
            file.unlink()
    part = sessions.made(name)[number]
    return Trial(session_words(name, "--store", "store", *workers), part.answers, input=part.text)


def rows_of_session(bench: Bench, name: str) -> Iterator[LargeRow]:
    yield LargeRow(f"{name}, chain", functools.partial(whole_session, (), name), bench.row)
    for count in WORKERS * (name in BY_WORKERS):
        yield LargeRow(f"{name}, chain by {count}", functools.partial(whole_session, ("--workers", str(count)), name), bench.row)
    for number in range(sessions.MAKERS[name].parts + 1):
        workers = PARTS_WORKERS[number] * (name in BY_PARTS)
        row = f"{name}, chain in a file, part {number + 1}" + (f" by {workers}" if workers else "")
        make = functools.partial(kept_session, bench, number, ("--workers", workers) if workers else (), name)
        yield LargeRow(row, make, bench.row)


def rows_of_stacks(bench: Bench) -> Iterator[LargeRow]:
    """The longest chain of waits, and the most keys, each with the least stack."""
    chain, keys = "1,024 calls on one key", "a file of 262,144 keys"
    for name, one in itertools.product((chain, keys), STACK_ROWS):
        make = functools.partial(by, [one.command, "block", *one.options], one.wanted, name)
        yield LargeRow(f"the least stack, {name}, {' '.join((one.command, *one.options))}", make, bench.least_stack)
    yield LargeRow(f"the least stack, {chain}, chain", functools.partial(whole_session, (), chain), bench.least_stack)


def rows(bench: Bench, is_small: bool) -> Iterator[LargeRow]:
    for name in blocks.SMALL if is_small else blocks.MAKERS:
        yield from rows_of_block(bench, name)
    for name in () if is_small else sessions.MAKERS:
        yield from rows_of_session(bench, name)
    for name, make in long_texts.rows(is_small).items():
        yield LargeRow(name, make, bench.row)
    yield from () if is_small else rows_of_stacks(bench)


def run(given: argparse.Namespace) -> int:
    with texts.new_folder("large-") as place:
        bench = Bench(given.rvstm, place)
        asked = [row for row in rows(bench, given.small) if any(word in row.name for word in given.only or [""])]
        if given.list:
            print("\n".join(row.name for row in asked))
            return 0
        for row in asked:
            row.tell(row.name, row.make())
    print(f"{bench.passed} passed, {bench.failed} failed")
    return 1 if bench.failed else 0


COMMAND = Command(
    "Gives the program large inputs, and prints time and memory of each.",
    "crates/rvstm/out/rvstm --only session",
    run,
    (
        options.RVSTM,
        argument("--only", action="append", metavar="WORD", help="only the rows that have WORD in their names; it may be given again"),
        argument("--small", action="store_true", help="smaller sizes, no sessions and no stacks"),
        argument("--list", action="store_true", help="prints the names of the rows, and runs nothing"),
    ),
)
