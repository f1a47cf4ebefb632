import argparse
import random
import sqlite3
from collections import Counter
from collections.abc import Iterable, Iterator
from dataclasses import dataclass
from pathlib import Path
from random import Random

from rvstm_developers import options, running, texts
from rvstm_developers.stores import files
from rvstm_developers.stores.files import Both
from rvstm_tools import options as shared_options
from rvstm_tools.errors import UserError
from rvstm_tools.options import Command, argument

FIRST_BYTES, ONE_IN = 1 << 16, 64
RANDOM, RANDOM_LONG = 1_000, 10_000
SECTOR, PAGE = 512, 4096
NO_TABLE = "no such table"


def turned_over(content: bytes, place: int) -> bytes:
    changed = bytearray(content)
    changed[place] ^= 0xFF
    return bytes(changed)


def damaged(choice: Random, whole: bytes) -> bytes:
    content, kind = bytearray(whole), choice.randrange(5)
    place = choice.randrange(len(content))
    if kind == 0:
        content[place] ^= 1 << choice.randrange(8)
    elif kind == 1:
        end = min(place + choice.randrange(1, 33), len(content))
        content[place:end] = choice.randbytes(end - place)
    elif kind == 2:
        place -= place % SECTOR
        content[place : place + SECTOR] = bytes(len(content[place : place + SECTOR]))
    elif kind == 3:
        del content[place:]
    else:
        place, other = (choice.randrange(len(content) // PAGE + 1) * PAGE for _ in range(2))
        content[place : place + PAGE] = content[other : other + PAGE]
    return bytes(content)


@dataclass(frozen=True)
class BySqlite:
    """What stock SQLite reads in a file, as answers to the questions, and what it says; None if it reads nothing."""

    held: bytes | None
    says: str


@dataclass(frozen=True)
class Came:
    what: str
    is_allowed: bool = False


class Damage:
    def __init__(self, rvstm: Path, choice: Random, place: Path) -> None:
        self.rvstm, self.choice, self.place, self.path = rvstm, choice, place, place / "file"
        self.counts: Counter[str] = Counter()
        self.bad = 0
        with files.Plain(rvstm) as plain:
            self.new = plain.held()
        self.held = files.made(rvstm, self.path, files.first_requests(choice))
        self.killed = files.contents(self.path)
        if files.run(rvstm, self.path).output != self.held:
            raise UserError("a session over a sound file does not hold what it has to")
        files.read_by_sqlite(self.path)
        self.ended = files.contents(self.path)

    def bytes_turned(self, is_long: bool) -> Iterator[Both]:
        for file, log in (self.ended, self.killed):
            for number in range(min(len(file or b""), FIRST_BYTES)):
                if is_long or self.choice.randrange(ONE_IN) == 0:
                    yield Both(turned_over(file or b"", number), log)
            for number in range(min(len(log or b""), FIRST_BYTES)):
                if is_long or self.choice.randrange(ONE_IN) == 0:
                    yield Both(file, turned_over(log or b"", number))

    def random(self, number: int) -> Iterator[Both]:
        for _ in range(number):
            file, log = self.choice.choice((self.ended, self.killed))
            if log is None or self.choice.randrange(2):
                yield Both(damaged(self.choice, file or b""), log)
            else:
                yield Both(file, damaged(self.choice, log))

    def by_sqlite(self, both: Both) -> BySqlite:
        """What stock SQLite reads in a copy, as answers to the questions, and what it says."""
        files.put(self.path, both)
        try:
            read = files.read_by_sqlite(files.copied(self.path, self.place))
            return BySqlite(self.new if read.rows.are_none() else files.answers_by(read.rows), read.check)
        except (sqlite3.Error, ValueError, TypeError, AttributeError, AssertionError) as error:  # what damaged rows lead to
            return BySqlite(self.new if NO_TABLE in str(error) else None, str(error))

    def came(self, both: Both) -> Came:
        """What came of a session over a damaged file, and whether it may come."""
        read = self.by_sqlite(both)
        files.put(self.path, both)
        try:
            run = files.run(self.rvstm, self.path)
        except running.TimedOutError:
            return Came("it does not end")
        if refusal := files.refusal_of(run):
            there = files.contents(self.path)
            is_left = there.file == both.file and (there.log is None) >= (both.log is None)
            return Came(f"refused as {refusal}" + ("" if is_left else ", and changed"), is_left)
        if run.status or run.errors:
            return Came(f"status {run.status}, {run.errors[:200]!r}")
        if run.output != read.held:
            return Came("read otherwise than by sqlite3" if read.held else f"read where sqlite3 says {read.says}")
        contents = "as it was" if read.held == self.held else "a new session" if read.held == self.new else "with other contents"
        return Came(f"read as by sqlite3, {contents}", True)

    def open(self, damage: Iterable[Both]) -> None:
        for both in damage:
            came = self.came(both)
            self.counts[came.what] += 1
            if not came.is_allowed:
                self.bad += 1
                files.put(self.path, both)
                print(f"bad: {files.kept('store-damage-', self.path)}: {came.what}", flush=True)

    def tell(self, what: str) -> None:
        parts = ", ".join(f"{number} {came}" for came, number in sorted(self.counts.items()))
        print(f"{sum(self.counts.values())} {what}: {parts}", flush=True)
        self.counts.clear()


def run(given: argparse.Namespace) -> int:
    with texts.new_folder("store-damage-", is_in_memory=True) as place:
        damage = Damage(given.rvstm, random.Random(given.seed), place)
        damage.open(damage.bytes_turned(given.long))
        damage.tell("bytes turned over")
        damage.open(damage.random(RANDOM_LONG if given.long else RANDOM))
        damage.tell("random damages")
    print(f"{damage.bad} bad")
    return 1 if damage.bad else 0


COMMAND = Command(
    "Damages files of `rvstm chain --store FILE`, and compares what a session reads in them with what stock SQLite reads.",
    "crates/rvstm/out/rvstm",
    run,
    (options.RVSTM, shared_options.SEED, argument("--long", action="store_true", help="each byte, and 10,000 random damages")),
)
