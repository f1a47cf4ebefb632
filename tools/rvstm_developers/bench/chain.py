import argparse
import importlib.util
import math
import random
import statistics
import time
from collections.abc import Sequence
from pathlib import Path
from random import Random
from typing import Protocol

from rvstm_developers import options, texts
from rvstm_developers.bench import blocks, commits, processes, tables
from rvstm_developers.bench.blocks import TimedBlock, TimedCall
from rvstm_developers.bench.pictures import COLOURS, LinePicture, Point
from rvstm_developers.texts import TOP, word
from rvstm_tools.errors import UserError
from rvstm_tools.options import Command, argument
from rvstm_tools.programs import finding
from rvstm_tools.sessions import frames
from rvstm_tools.sessions.processes import Session, Settings
from rvstm_tools.sessions.requests import Request, Word
from rvstm_tools.texts.keys import Storage
from rvstm_tools.texts.keys import numbered_key as key

SIZES = (100, 1_000, 10_000, 100_000, 1_000_000)
FRAME_LIMIT = 1 << 27  # bytes of a frame: the one of a million keys has 88 MB
COMPARED = 1_000  # Keys, with whose time that of a block is compared
TRANSFERS, GAS = 200, 2_000
ROUNDS, BLOCKS_A_ROUND, BLOCKS_FOR_MEMORY = 15, 10, 1_000
WORKERS, ROUNDS_BY_WORKERS = 4, 25
WORKS = (
    (1_000, 1_000, 1_000), (1_000, 3_000, 1_000), (1_000, 10_000, 1_000), (1_000, 30_000, 1_000), (64, 500_000, 1_000),
    (32, 30_000, 1_000), (1_000, 3_000, 100_000), (1_000, 30_000, 100_000),
)
"""Calls, instructions a call, and keys of the storage."""
WORKERS_COLUMNS = ("a frame", "keys", "in order, ms", f"{WORKERS} workers, ms", "times as fast")
COLUMNS = (
    "keys", "first frame, ms", "`chain`, ms a block", f"times that over {COMPARED:,}", "one block again, ms",
    f"times that over {COMPARED:,}", "`seq`, ms a block", "times `chain`", "bytes a key", "MiB",
    f"MiB after {BLOCKS_FOR_MEMORY:,} more blocks",
)
MEBIBYTE = 1 << 20


def seq_time(rvstm: Path, block: str, place: Path) -> float:
    """The processor time of `seq` on a block file in milliseconds. Its result is in the file `result`."""
    return 1000 * processes.sound(processes.timed([rvstm, "seq", block], place, result="result")).processor


def transfers(choice: Random, keys: int) -> list[TimedCall]:
    pairs = [choice.sample(range(keys), 2) for _ in range(TRANSFERS)]
    return [TimedCall(GAS, key(one) + key(other)) for one, other in pairs]


def accounts(keys: int) -> Storage:
    return {key(number): word(1_000_000) for number in range(keys)}


def frame_of(place: Path, block: TimedBlock) -> Request:
    return frames.named(block.text().encode(), place).frame()


def begun(rvstm: Path, settings: Settings, program: Path) -> Session:
    session = Session(rvstm, settings)
    processes.answered(session, Request(Word.PROGRAM, (), program.read_bytes()))
    return session


class Measured:
    """A session over so many keys, with what it took in each round, and `seq` beside it."""

    def __init__(self, rvstm: Path, settings: Settings, place: Path, keys: int) -> None:
        self.rvstm, self.place, self.keys = rvstm, place, keys
        choice = random.Random(keys)
        made = [TimedBlock("", "transfer", transfers(choice, keys)) for _ in range(BLOCKS_A_ROUND)]
        self.frames = [frame_of(place, block) for block in made]
        self.path = place / f"{keys}.block"
        self.path.write_text(TimedBlock("", "transfer", made[0].calls, accounts(keys)).text(), encoding="utf-8")
        self.session = begun(rvstm, settings, place / "transfer.elf")
        self.first = self.timed([frame_of(place, TimedBlock("", "transfer", [], accounts(keys)))])
        self.answer = processes.answered(self.session, self.frames[0]).body
        seq_time(rvstm, self.path.name, place)
        if self.answer != frames.receipts_of((place / "result").read_bytes(), is_brief=settings.brief):
            raise UserError("a session and seq differ")
        self.chain_times: list[float] = []
        self.again_times: list[float] = []
        self.seq_times: list[float] = []
        self.before = self.after = 0

    def timed(self, asked: Sequence[Request]) -> float:
        return sum(processes.answered(self.session, request).processor for request in asked) / len(asked)

    def add_round(self) -> None:
        """A round of ten blocks, of one of them ten times, and of `seq`."""
        self.chain_times.append(self.timed(self.frames))
        self.again_times.append(self.timed(self.frames[:1] * BLOCKS_A_ROUND))
        self.seq_times.append(seq_time(self.rvstm, self.path.name, self.place))

    def add_more_blocks(self) -> None:
        self.before = processes.resident(self.session.process.pid)
        self.timed(self.frames * (BLOCKS_FOR_MEMORY // BLOCKS_A_ROUND))
        self.after = processes.resident(self.session.process.pid)

    def row(self, compared: "Measured") -> list[str]:
        share = (self.before - compared.before) / (self.keys - COMPARED) if self.keys > COMPARED else None
        return [
            f"{self.keys:,}", f"{self.first:.1f}",
            tables.middle(self.chain_times, ".2f"), f"{tables.ratio(self.chain_times, compared.chain_times):.2f}",
            tables.middle(self.again_times, ".2f"), f"{tables.ratio(self.again_times, compared.again_times):.2f}",
            tables.middle(self.seq_times), f"{tables.ratio(self.seq_times, self.chain_times):.1f}",
            f"{share:.0f}" if share else "-", f"{self.before / MEBIBYTE:.2f}", f"{self.after / MEBIBYTE:.2f}",
        ]


class Beside:
    """Two sessions over the same keys, in order and with workers, with what a frame took of each in each round."""

    def __init__(self, rvstm: Path, settings: Settings, place: Path, block: TimedBlock, keys: int) -> None:
        self.name, self.keys = block.name, keys
        self.times: list[list[float]] = []
        first = frame_of(place, TimedBlock("", block.source, [], accounts(keys)))
        self.frame = frame_of(place, block)
        both = [settings._replace(workers=workers) for workers in (None, WORKERS)]
        self.sessions = [begun(rvstm, some, place / f"{block.source}.elf") for some in both]
        answers = {tuple(processes.answered(session, request).body for request in (first, self.frame)) for session in self.sessions}
        if len(answers) != 1:
            raise UserError(f"{block.name}: the answers with {WORKERS} workers are others")

    def row(self) -> list[str]:
        for _ in range(ROUNDS_BY_WORKERS):
            self.times.append([processes.answered(session, self.frame).elapsed for session in self.sessions])
        for session in self.sessions:
            session.kill()
        in_order, by_workers = zip(*self.times)
        ratio = tables.ratio(in_order, by_workers)
        return [self.name, f"{self.keys:,}", tables.middle(in_order), tables.middle(by_workers), f"{ratio:.2f}"]


def print_by_workers(rvstm: Path, settings: Settings, place: Path) -> None:
    blocks.assemble(rvstm, place, "work")
    tables.print_head(WORKERS_COLUMNS)
    for keys in (1_000, 100_000):
        block = TimedBlock(f"{TRANSFERS} transfers", "transfer", transfers(random.Random(keys), keys))
        tables.print_row(Beside(rvstm, settings, place, block, keys).row())
    for count, length, keys in WORKS:
        block = TimedBlock(f"{count:,} calls of {length:,} instructions", "work", blocks.mixing(length, count))
        tables.print_row(Beside(rvstm, settings, place, block, keys).row())


class OverNothing:
    """The same calls with `seq` over an empty storage, less the start of a process."""

    def __init__(self, rvstm: Path, place: Path, block: bytes) -> None:
        self.rvstm, self.place = rvstm, place
        self.times: list[float] = []
        lines = [line for line in frames.lines_of(block) if not line.startswith(b"store ")]
        (place / "whole.block").write_bytes(b"".join(lines))
        (place / "start.block").write_bytes(b"".join(lines[:2]))

    def add_round(self) -> None:
        self.times.append(seq_time(self.rvstm, "whole.block", self.place) - seq_time(self.rvstm, "start.block", self.place))

    def line(self, compared: Measured) -> str:
        ratio = tables.ratio(compared.chain_times, self.times)
        return (
            f"`seq` over an empty storage, less the start of a process: {tables.middle(self.times, '.2f')} ms; "
            f"`chain` over {COMPARED:,} keys takes {ratio:.2f} times that"
        )


class Embedded(Protocol):
    """A session of examples/embed/embed.py."""

    def ask(self, name: str, data: bytes, /) -> bytes:
        """The answer to a call of the library."""


def embedded(library: Path, settings: Settings) -> Embedded:
    spec = importlib.util.spec_from_file_location("embed", TOP / "examples/embed/embed.py")
    assert spec is not None and spec.loader is not None
    module = importlib.util.module_from_spec(spec)
    spec.loader.exec_module(module)
    session: Embedded = module.Session(str(library), frame_limit=settings.frame_limit, digest=settings.digest, brief=settings.brief)
    return session


class InLibrary:
    def __init__(self, library: Path, settings: Settings, place: Path, measured: Measured) -> None:
        self.frames = [frame.body for frame in measured.frames]
        self.times: list[float] = []
        self.session = embedded(library, settings)
        self.session.ask("rvstm_program", (place / "transfer.elf").read_bytes())
        lines = [line for line in frames.lines_of(measured.path.read_bytes()) if not line.startswith(b"call ")]
        self.session.ask("rvstm_frame", frames.named(b"".join(lines), place).block)
        if self.session.ask("rvstm_frame", self.frames[0]) != measured.answer:
            raise UserError("the library and a session differ")

    def add_round(self) -> None:
        before = time.process_time()
        for frame in self.frames:
            self.session.ask("rvstm_frame", frame)
        self.times.append(1000 * (time.process_time() - before) / len(self.frames))

    def line(self, measured: Measured) -> str:
        ratio, middle = tables.ratio(self.times, measured.chain_times), 1000 * statistics.median(self.times)
        return f"the library over {measured.keys:,} keys: {middle:.0f} microseconds a block, {ratio:.2f} times `chain`"


def picture(measured: Sequence[Measured]) -> LinePicture:
    """The time of a block by the keys of the storage, both by powers of ten: a line for `chain` and one for `seq`."""
    made = LinePicture(680, 380, 84, 580, 320)
    lines = {
        "chain": [statistics.median(one.chain_times) for one in measured],
        "seq": [statistics.median(one.seq_times) for one in measured],
    }
    all_times = [spent for times in lines.values() for spent in times]
    low, high = math.floor(math.log10(min(all_times))), math.ceil(math.log10(max(all_times)))
    first, last = math.log10(measured[0].keys), math.log10(measured[-1].keys)

    def x(keys: int) -> float:
        return made.left + (made.right - made.left) * (math.log10(keys) - first) / max(last - first, 1)

    def y(spent: float) -> float:
        return made.bottom - (made.bottom - made.top) * (math.log10(spent) - low) / (high - low)

    for power in range(low, high + 1):
        made.mark_y(y(10.0**power), f"{10.0**power:g} ms")
    for one in measured:
        made.mark_x(x(one.keys), f"{one.keys:,}")
    made.title("keys in the storage", f"processor time of a block of {TRANSFERS} transfers")
    for colour, (name, times) in zip(COLOURS, lines.items()):
        points = [Point(x(one.keys), y(spent)) for one, spent in zip(measured, times)]
        made.line(points, colour)
        made.label(Point(made.right + 10, points[-1].y + 4), name, colour)
    return made


def print_by_keys(given: argparse.Namespace, settings: Settings, place: Path) -> None:
    """The table of blocks by the keys of the storage, and the picture if one is wanted."""
    measured = [Measured(given.rvstm, settings, place, keys) for keys in SIZES if keys <= max(given.most, COMPARED)]
    compared = next(one for one in measured if one.keys == COMPARED)
    over_nothing = OverNothing(given.rvstm, place, compared.path.read_bytes())
    libraries = [InLibrary(given.library, settings, place, one) for one in measured] if given.library else []
    for _ in range(ROUNDS):
        for one in measured:
            one.add_round()
        over_nothing.add_round()
        for library in libraries:
            library.add_round()
    for one in measured:
        one.add_more_blocks()
    tables.print_table(COLUMNS, [one.row(compared) for one in measured])
    print(f"\n{over_nothing.line(compared)}\n")
    for library, one in zip(libraries, measured):
        print(library.line(one))
    if given.svg:
        picture(measured).write(given.svg)
    for one in measured:
        one.session.kill()


def run(given: argparse.Namespace) -> int:
    if given.store:
        commits.print_tables(given.rvstm, given.most)
        return 0
    settings = Settings(FRAME_LIMIT, digest=given.digest, brief=given.brief)
    with texts.new_folder() as place:
        blocks.assemble(given.rvstm, place, "transfer")
        if not given.by_workers:
            print_by_keys(given, settings, place)
        print_by_workers(given.rvstm, settings, place)
    return 0


COMMAND = Command(
    "Times a block of 200 transfers with `rvstm chain` over 100 to 1,000,000 keys, beside `rvstm seq` in one process a block.",
    "crates/rvstm/out/rvstm --most 1000",
    run,
    (
        options.RVSTM,
        argument("--most", type=int, default=SIZES[-1], metavar="KEYS", help="leaves storages with more keys out"),
        argument("--library", type=finding.absolute, metavar="LIBRARY", help="librvstm.so, which is timed too"),
        argument("--svg", type=finding.absolute, metavar="OUT", help="a file for the picture"),
        argument("--by-workers", action="store_true", help="the table of frames with workers alone"),
        argument("--store", action="store_true", help="the tables of sessions in a file alone"),
        argument("--digest", action="store_true", help="the sessions keep a digest"),
        argument("--brief", action="store_true", help="their receipts have no registers"),
    ),
)
