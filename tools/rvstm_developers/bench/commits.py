"""Times commits of `rvstm chain --store` beside SQLite's own library: `rvstm-developers chain --store`."""

import contextlib
import random
import re
import shutil
import struct
import subprocess
import time
from collections.abc import Iterator, Sequence
from dataclasses import dataclass
from pathlib import Path
from random import Random
from typing import NamedTuple

from rvstm_developers import running, texts
from rvstm_developers.bench import processes, tables
from rvstm_developers.bench.blocks import FOLDER
from rvstm_tools.errors import UserError
from rvstm_tools.programs.pipes import Pipes
from rvstm_tools.sessions import frames
from rvstm_tools.sessions.processes import Session, Settings
from rvstm_tools.sessions.requests import Request, Word
from rvstm_tools.texts.keys import Storage, numbered_key

SIZES, CHANGED = (1_000, 100_000, 1_000_000), (10, 400)
FRAME_LIMIT = 1 << 27
ROUNDS, COUNTED, STARTS = 60, 20, 5
COLUMNS = (
    "keys", "changed", "a frame without a file, ms", "with one, ms", "the commit, ms", "C, ms", "times C", "C with a second sync, ms",
    "times that", "C without the two rows, ms", "processor time, without and with a file, ms", "of `try`, ms",
)
OF_EACH = ("writes to FILE-wal", "KiB", "writes to FILE", "KiB", "syncs")
CALLS_COLUMNS = ("keys", "changed", *(f"{name}: {what}" for name in ("rvstm", "C") for what in OF_EACH))
START_COLUMNS = ("keys", "first answer, s", "C reads all rows, s", "bytes of FILE a key", "MiB at most", "bytes a key")
WRITE = re.compile(r"(pwrite64|fdatasync)\(\d+<([^>]*)>.*= (\d+)$", re.M)


class StoreWay(NamedTuple):
    rows: str
    syncs: str


WAYS = (StoreWay("1", "1"), StoreWay("1", "2"), StoreWay("0", "1"))


class SystemCall(NamedTuple):
    name: str
    path: str
    result: int


@dataclass(frozen=True)
class Commit:
    """What a commit takes in milliseconds: frames without a file and with one, processor time, tries, and in C."""

    plain: float
    whole: float
    plain_processor: float
    whole_processor: float
    plain_try: float
    whole_try: float
    in_c: tuple[float, ...]

    @property
    def alone(self) -> float:
        return self.whole - self.plain


def block_of(changes: Storage) -> Request:
    return Request(Word.FRAME, (), texts.head_of(3).encode() + frames.store_lines(changes))


def changes_of(source: Random, keys: int, count: int) -> Storage:
    return {key: source.randbytes(8) for key in map(numbered_key, source.sample(range(keys), count))}


class PlainStore(Pipes):
    def __init__(self, program: Path, file: Path, way: StoreWay) -> None:
        super().__init__([program, file, *way])

    def asked(self, request: bytes) -> float:
        self.give(request)
        return int(self.output.readline()) / 1e6

    def commit(self, changes: Storage, answer: bytes) -> float:
        body = b"".join(key + value for key, value in sorted(changes.items()))
        return self.asked(b"c" + struct.pack("=II", len(changes), len(answer)) + body + answer)


class StoredSessions:
    """Sessions over so many keys, one with a file and one without, and C over copies of the file."""

    def __init__(self, rvstm: Path, program: Path, place: Path, keys: int) -> None:
        self.keys, self.source, self.file = keys, random.Random(keys), place / str(keys)
        kept, digest = Settings(FRAME_LIMIT, store=str(self.file)), Settings(FRAME_LIMIT, digest=True)
        first = block_of({numbered_key(number): bytes(8) for number in range(keys)})
        with Session(rvstm, kept) as session:
            processes.answered(session, first)
            session.end()
        self.copies = [Path(shutil.copy(self.file, f"{self.file}.{''.join(way)}")) for way in WAYS]
        self.bytes = self.file.stat().st_size / keys
        self.starts: list[float] = []
        self.reads: list[float] = []
        self.memory = 0
        self.start(rvstm, kept, program)
        self.session, self.plain = Session(rvstm, kept), Session(rvstm, digest)
        processes.answered(self.plain, first)
        self.beside = [PlainStore(program, copy, way) for copy, way in zip(self.copies, WAYS)]

    def start(self, rvstm: Path, kept: Settings, program: Path) -> None:
        """The seconds until a session over the file answers, and until C has read all rows."""
        for _ in range(STARTS):
            began = time.perf_counter()
            with Session(rvstm, kept) as session:
                processes.answered(session, Request(Word.STATE))
                self.starts.append(time.perf_counter() - began)
                self.memory = 1024 * processes.peak_of(session.process.pid)
                session.end()
            began = time.perf_counter()
            with PlainStore(program, self.copies[0], WAYS[0]) as reader:
                reader.asked(b"l")
                self.reads.append(time.perf_counter() - began)
                reader.end()

    def commit(self, count: int) -> Commit:
        changes = changes_of(self.source, self.keys, count)
        block = block_of(changes)
        attempt = block._replace(word=Word.TRY)
        plain_try, kept_try = (processes.answered(session, attempt).processor for session in (self.plain, self.session))
        plain, kept = processes.answered(self.plain, block), processes.answered(self.session, block)
        if kept.body != plain.body:
            raise UserError("the answers with a file and without one differ")
        other = self.source.randbytes(len(plain.body))  # SQLite leaves out a page whose row is the same again
        in_c = tuple(beside.commit(changes, other) for beside in self.beside)
        return Commit(plain.elapsed, kept.elapsed, plain.processor, kept.processor, plain_try, kept_try, in_c)

    def row(self, count: int) -> list[str]:
        found = [self.commit(count) for _ in range(ROUNDS)]
        alone = [one.alone for one in found]
        same, synced, bare = ([one.in_c[number] for one in found] for number in range(len(WAYS)))
        pairs = (
            ((one.plain_processor for one in found), (one.whole_processor for one in found)),
            ((one.plain_try for one in found), (one.whole_try for one in found)),
        )
        return [
            f"{self.keys:,}", str(count), tables.middle((one.plain for one in found), ".2f"), tables.middle(one.whole for one in found),
            tables.middle(alone), tables.middle(same), f"{tables.ratio(alone, same):.2f}", tables.middle(synced),
            f"{tables.ratio(alone, synced):.2f}", tables.middle(bare),
            *(" and ".join(tables.middle(times, ".2f") for times in pair) for pair in pairs),
        ]

    def row_of_calls(self, count: int, place: Path) -> list[str]:
        cells = [f"{self.keys:,}", str(count)]
        for number, (process, file) in enumerate(((self.session.process, self.file), (self.beside[0].process, self.copies[0]))):
            trace = place / f"trace{number}"
            with traced(process.pid, trace):
                for _ in range(COUNTED):
                    self.commit(count)
            calls = [SystemCall(name, path, int(result)) for name, path, result in WRITE.findall(trace.read_text(encoding="utf-8"))]
            for path in (f"{file}-wal", str(file)):
                lengths = [call.result for call in calls if (call.name, call.path) == ("pwrite64", path)]
                cells += [f"{len(lengths) / COUNTED:.1f}", f"{sum(lengths) / 1024 / COUNTED:,.1f}"]
            cells.append(f"{sum(call.name == 'fdatasync' for call in calls) / COUNTED:.1f}")
        return cells

    def start_row(self, empty: int) -> list[str]:
        """What the start took. The memory of a key is what is more than of a session with no keys."""
        return [
            f"{self.keys:,}", tables.middle(self.starts, ".2f"), tables.middle(self.reads, ".2f"), f"{self.bytes:.0f}",
            f"{self.memory / 2**20:.1f}", f"{(self.memory - empty) / self.keys:.0f}",
        ]

    def close(self) -> None:
        for process in (self.session, self.plain, *self.beside):
            process.kill()


@contextlib.contextmanager
def traced(process: int, path: Path) -> Iterator[None]:
    words = ["strace", "-f", "-y", "-e", "trace=pwrite64,fdatasync", "-o", str(path), "-p", str(process)]
    with subprocess.Popen(words, stderr=subprocess.PIPE) as strace:
        assert strace.stderr is not None
        strace.stderr.readline()  # says that it is attached
        yield
        strace.terminate()


def compiled(place: Path) -> Path:
    program = place / "commits"
    running.output_of(["cc", "-O2", "-o", program, FOLDER / "commits.c", "-lsqlite3"])
    return program


def memory_of_none(rvstm: Path, place: Path) -> int:
    with Session(rvstm, Settings(FRAME_LIMIT, store=str(place / "none"))) as session:
        processes.answered(session, Request(Word.STATE))
        return 1024 * processes.peak_of(session.process.pid)


def print_tables(rvstm: Path, most: int) -> None:
    """The tables of commits, of what they ask of the system, and of starts."""
    rows: list[list[str]] = []
    calls: list[list[str]] = []
    starts: list[list[str]] = []
    with texts.new_folder("commits-") as place:
        program, empty = compiled(place), memory_of_none(rvstm, place)
        for keys in (keys for keys in SIZES if keys <= most):
            with contextlib.closing(StoredSessions(rvstm, program, place, keys)) as stored:
                rows += [stored.row(count) for count in CHANGED]
                calls += [stored.row_of_calls(count, place) for count in CHANGED] if shutil.which("strace") else []
                starts.append(stored.start_row(empty))
    print_all((COLUMNS, rows), (CALLS_COLUMNS, calls), (START_COLUMNS, starts))


def print_all(*found: tuple[Sequence[str], list[list[str]]]) -> None:
    for columns, rows in found:
        tables.print_table(columns, rows)
        print()
