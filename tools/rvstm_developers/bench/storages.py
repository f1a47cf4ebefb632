import argparse
import hashlib
import random
import statistics
from collections.abc import Callable, Mapping, Sequence
from pathlib import Path

from rvstm_developers import options, texts
from rvstm_developers.bench import blocks, processes, tables
from rvstm_developers.texts import word
from rvstm_tools.options import Command, argument
from rvstm_tools.sessions import frames, requests
from rvstm_tools.sessions.processes import Session, Settings
from rvstm_tools.sessions.requests import Request, Word
from rvstm_tools.texts.keys import ACCOUNT_LENGTH, Key, numbered_key

SIZES = (1_000, 100_000, 1_000_000)
COMPARED = SIZES[0]  # Keys, with whose time that of a block is compared
FRAME_LIMIT = 1 << 27
CALLS, GAS, ROUNDS, BLOCKS_A_ROUND = 200, 2_000, 15, 5
GROWTH_CALLS = 1_000
VALUE = word(1_000_000)
GROUP = 16  # keys of one hash
WORDS = 2**64
ODD = 0x9E3779B97F4A7C15  # spreads the sums of the groups
SOURCES = ("transfer", "put", "remove")
ACTS = ("transfers", "writes", "removals", "dump", "begin")
SHOWN_ACTS = ("transfers", "writes", "removals", "begin", "dump")
COLUMNS = (
    "keys are", "keys", "a block of transfers, ms", f"times that over {COMPARED:,}", "transfers", "200 keys written",
    "200 keys removed", "`begin`", "`dump`", "bytes a key",
)

KeyOf = Callable[[int], Key]  # the key of a number


def digest_key(number: int) -> Key:
    return Key(hashlib.sha256(b"%d" % number).digest())


def alike_key(number: int) -> Key:
    """The hash is made of the sum of a key's words; it is one for each sixteen numbers."""
    first = int.from_bytes(digest_key(number)[:8], "little")
    second = (number // GROUP * ODD - first) % WORDS
    return Key(word(first, 8) + word(second, 8) + bytes(16))


def alike_row(number: int) -> Key:
    """A row of 20 bytes, as a stranger may name it: its last eight bytes make one sum for each sixteen numbers."""
    start, length = b"acct" + digest_key(number)[:12], bytes(7) + bytes([ACCOUNT_LENGTH])
    others = sum(int.from_bytes(part, "little") for part in (start[:8], start[8:], length))
    return Key(start + word((number // GROUP * ODD - others) % WORDS, 8) + length)


KINDS: dict[str, KeyOf] = {"small numbers": numbered_key, "digests": digest_key, "made alike": alike_key, "rows made alike": alike_row}


def frame(name: str, calls: Sequence[bytes]) -> Request:
    """A block of calls of one program by its name, under rules two, which have removals."""
    lines = [f"call 0 {GAS} {data.hex()}\n" for data in calls]
    return Request(Word.FRAME, (), f"{texts.HEADS[2]}program 0 {name}\n{''.join(lines)}".encode())


class MeasuredStorage:
    def __init__(self, rvstm: Path, files: Mapping[str, bytes], key: KeyOf, keys: int) -> None:
        self.session, self.keys = Session(rvstm, Settings(FRAME_LIMIT)), keys
        names = {source: frames.name_of(file) for source, file in files.items()}
        for file in files.values():
            processes.answered(self.session, Request(Word.PROGRAM, (), file))
        choice = random.Random(keys)
        pairs = [[choice.sample(range(keys), 2) for _ in range(CALLS)] for _ in range(BLOCKS_A_ROUND)]
        new = [[key(keys + CALLS * block + number) for number in range(CALLS)] for block in range(BLOCKS_A_ROUND)]
        store = frames.store_lines({key(number): VALUE for number in range(keys)})
        self.acts = {
            "transfers": [frame(names["transfer"], [key(one) + key(other) for one, other in block]) for block in pairs],
            "writes": [frame(names["put"], block) for block in new],
            "removals": [frame(names["remove"], block) for block in new],
            "dump": [Request(Word.DUMP)],
            "begin": [requests.begin(0, None, frames.dump_of(2, {}) + store)],
        }
        self.times: dict[str, list[float]] = {name: [] for name in ACTS}
        self.timed("begin")
        self.times["begin"].clear()
        self.memory = processes.resident(self.session.process.pid)

    def timed(self, act: str) -> None:
        found = [processes.answered(self.session, request) for request in self.acts[act]]
        self.times[act].append(sum(one.processor for one in found) / len(found))

    def row(self, kind: str, least: "MeasuredStorage") -> list[str]:
        share = f"{(self.memory - least.memory) / (self.keys - COMPARED):.1f}" if self.keys > COMPARED else "-"
        ratio = tables.ratio(self.times["transfers"], least.times["transfers"])
        times = (f"{tables.middle(self.times[act], '.3f')} ms" for act in SHOWN_ACTS)
        return [kind, f"{self.keys:,}", tables.middle(self.times["transfers"], ".3f"), f"{ratio:.3f}", *times, share]


def grown(rvstm: Path, files: Mapping[str, bytes], keys: int) -> str:
    """The bytes of a key in a storage that grew by blocks of digests, and the middle and longest time of a block."""
    with Session(rvstm, Settings(FRAME_LIMIT)) as session:
        processes.answered(session, Request(Word.PROGRAM, (), files["put"]))
        name, least = frames.name_of(files["put"]), 0
        times: list[float] = []
        for place in range(0, keys, GROWTH_CALLS):
            block = frame(name, [digest_key(number) for number in range(place, place + GROWTH_CALLS)])
            times.append(processes.answered(session, block).processor)
            if len(times) == COMPARED // GROWTH_CALLS:
                least = processes.resident(session.process.pid)
        share = (processes.resident(session.process.pid) - least) / (keys - COMPARED)
    return f"{share:.1f} bytes a key, a block {statistics.median(times):.1f} ms in the middle and {max(times):.1f} at most"


def print_kind(rvstm: Path, files: Mapping[str, bytes], kind: str, sizes: Sequence[int], rounds: int) -> None:
    measured = [MeasuredStorage(rvstm, files, KINDS[kind], keys) for keys in sizes]
    for _ in range(rounds):
        for one in measured:
            for act in ACTS:
                one.timed(act)
    for one in measured:
        tables.print_row(one.row(kind, measured[0]))
        one.session.kill()


def run(given: argparse.Namespace) -> int:
    sizes = [keys for keys in SIZES if keys <= max(given.most, COMPARED)]
    with texts.new_folder() as place:
        files = {source: blocks.assemble(given.rvstm, place, source).read_bytes() for source in SOURCES}
    tables.print_head(COLUMNS)
    for kind in KINDS if given.rounds else ():
        print_kind(given.rvstm, files, kind, sizes, given.rounds)
    print(f"grown by blocks to {given.grown:,} keys: {grown(given.rvstm, files, given.grown)}")
    return 0


COMMAND = Command(
    "Times blocks with `rvstm chain` over storages of four kinds of keys.",
    "crates/rvstm/out/rvstm --most 1000 --rounds 3 --grown 10000",
    run,
    (
        options.RVSTM,
        argument("--most", type=int, default=SIZES[-1], metavar="KEYS", help="leaves storages with more keys out"),
        argument("--rounds", type=int, default=ROUNDS, metavar="N", help=f"so many rounds ({ROUNDS})"),
        argument("--grown", type=int, default=SIZES[-1], metavar="KEYS", help="how far the last storage grows"),
    ),
)
