import argparse
import enum
import os
import random
import re
import resource
import subprocess
import tempfile
import time
from collections.abc import Sequence
from dataclasses import dataclass
from pathlib import Path
from random import Random

from rvstm_developers import comparing, options, texts
from rvstm_developers.drawing import programs
from rvstm_developers.models import inputs
from rvstm_developers.running import Word
from rvstm_developers.texts import TOP
from rvstm_tools.options import Command, argument
from rvstm_tools.programs.pipes import Ended
from rvstm_tools.sessions import frames, requests
from rvstm_tools.sessions.processes import LONGEST_FRAME, Settings
from rvstm_tools.sessions.requests import Request
from rvstm_tools.texts.blocks import CallLine
from rvstm_tools.texts.keys import key_of, numbered_key

SECONDS_A_RUN = 60
BYTES_A_RUN = 1 << 30
LONGEST_SEED = 200_000
REFUSAL = re.compile(rb"rvstm: [a-z]+ ([0-9]+ )?[A-Za-z]+ [0-9]+\n\Z")
KEYS = [key_of(bytes([number]), "") for number in range(3)]
ZEROS = numbered_key(0)
COUNTER = TOP / "examples/counter"
DEBUG_LINES = b"s\nb\nw\nr\ng 00000000\nm 00010000 64\nb\nm 0010ffff 1\nq\n"
SESSION_WORDS = (
    b"frame 9\n", b"rvblock 1\n", b"\nend\n", b"dump\n", b"try 0\n", b"get ", b"q\n", b"program 0\n", b"\n", b"\0", b"frame 99999\n",
)


class FileKind(enum.Enum):
    ELF = "elf"
    BLOCK = "block"
    SOURCE = "source"
    SCHEDULE = "schedule"
    LINES = "lines"
    STORAGE = "storage"
    SESSION = "session"


@dataclass(frozen=True)
class Seed:
    folder: Path
    data: bytes


def seeds() -> dict[FileKind, list[Seed]]:
    patterns = {
        FileKind.ELF: ("examples/*/*.elf", "bench/programs/*.elf"),
        FileKind.BLOCK: ("examples/*/*.block",),
        FileKind.SOURCE: ("examples/*/*.s", "bench/programs/*.s"),
        FileKind.SCHEDULE: ("examples/*/*.schedule",),
    }
    found = {
        kind: [Seed(path.parent, path.read_bytes()) for pattern in each for path in sorted(TOP.glob(pattern))]
        for kind, each in patterns.items()
    }
    found[FileKind.LINES] = [Seed(TOP, DEBUG_LINES)]
    found[FileKind.STORAGE] = [Seed(TOP, b"")]
    folders = sorted({seed.folder for seed in found[FileKind.BLOCK]})
    found[FileKind.SESSION] = [Seed(folder, session_of(folder)) for folder in folders]
    return found


def session_of(folder: Path) -> bytes:
    """A session of all blocks of a folder, twice, with questions between them, and one that begins again."""
    zeros = requests.key_field(ZEROS)
    parts: list[Request] = []
    for path in sorted(folder.glob("*.block")):
        named = frames.named(path.read_bytes(), folder)
        parts += [*named.programs(), named.frame()._replace(word=requests.Word.TRY), named.frame()]
        parts.append(Request(requests.Word.GET, (zeros,)))
    parts += [Request(word) for word in (requests.Word.LAST, requests.Word.DUMP, requests.Word.STATE, requests.Word.PROGRAMS)]
    parts += [Request(requests.Word.LIST, (zeros, b"1024")), requests.begin(7, None, frames.dump_of(1, {ZEROS: b"\1"}))]
    return b"".join(part.text() for part in parts * 2) + b"q\n"


# ---- damage


def damaged(choice: Random, whole: bytes, others: Sequence[Seed]) -> bytes:
    data = bytearray(whole)
    for _ in range(choice.randint(1, 8)):
        place = choice.randrange(len(data) + 1)
        end = min(len(data), place + choice.randint(1, 64))
        change = choice.randrange(7)
        if change == 0 and data:
            data[choice.randrange(len(data))] ^= 1 << choice.randrange(8)
        elif change == 1 and data:
            data[choice.randrange(len(data))] = choice.choice(b"\x00\x7f\xff\n -09af\r")
        elif change == 2:
            del data[place:end]
        elif change == 3:
            data[place:place] = data[place:end]
        elif change == 4:
            data[place:place] = choice.randbytes(choice.randint(1, 8))
        elif change == 5:
            other = choice.choice(others).data
            data[place:] = other[choice.randrange(len(other) + 1) :]
        else:
            number = choice.choice([0, 1, 9, 255, 1023, 1024, 65535, 65536, 10_000_000, 2**32, 2**64])
            data[place:end] = b"%d" % number
    return bytes(data[:LONGEST_SEED])


def random_bytes(choice: Random) -> bytes:
    parts = [choice.choice((*SESSION_WORDS, choice.randbytes(choice.randrange(64)))) for _ in range(choice.randrange(40))]
    return b"".join(parts)


def damaged_session(choice: Random, data: bytes, others: Sequence[Seed]) -> bytes:
    """A session that is damaged anywhere, or in the bodies and lines of some requests, with lengths that are right; or whose
    frames have requests in them."""
    kind = choice.randrange(4)
    if kind == 0:
        return damaged(choice, data, others)
    if kind == 1:
        return random_bytes(choice)
    asked = inputs.requests_of(data).requests
    for number in choice.sample(range(len(asked)), min(len(asked), choice.randint(1, 6))):
        asked[number] = damaged_request(choice, asked[number], asked, others)
    return requests.text_of(asked)


def damaged_request(choice: Random, request: Request, asked: Sequence[Request], others: Sequence[Seed]) -> Request:
    """A request with a damaged body, or with another request in it; one without a body becomes a random one."""
    if not request.body:
        return choice.choice(asked)
    lines = frames.lines_of(request.body)
    if request.word != requests.Word.PROGRAM and choice.randrange(2):
        lines.insert(choice.randrange(len(lines) + 1), choice.choice(asked).text())
        return request._replace(body=b"".join(lines))
    return request._replace(body=damaged(choice, request.body, others))


def storage_block(choice: Random, head: str, program: Path) -> bytes:
    """A block of calls of a program of storage calls, whole or damaged."""
    store = {key: choice.randbytes(choice.choice((1, 8, 8))) for key in KEYS}
    calls = [CallLine(0, 100_000, programs.input_of(choice, KEYS)) for _ in range(choice.randint(2, 20))]
    block = texts.block_text([program], store, calls, head).encode()
    return damaged(choice, block, [Seed(TOP, block)]) if choice.randrange(2) else block


# ---- runs


def limit() -> None:
    resource.setrlimit(resource.RLIMIT_AS, (4 * BYTES_A_RUN, 4 * BYTES_A_RUN))
    resource.setrlimit(resource.RLIMIT_CORE, (0, 0))


class Runs:
    """Runs of the program in a folder of its own, and how many failed."""

    def __init__(self, rvstm: Path, place: Path) -> None:
        self.rvstm, self.place = rvstm, place
        self.damaged, self.second, self.out, self.migrated = (place / name for name in ("damaged", "second", "out.elf", "migrated"))
        self.count = self.failed = 0
        self.largest = 0  # of all runs, in KiB
        self.given = b""  # the input of the last run

    def run(self, folder: Path, words: Sequence[Word], data: bytes = b"") -> bytes | None:
        """What the program prints if it is done; None if it refuses, or if the run fails."""
        ended = self.ended(folder, words, data)
        return ended.output if ended and self.is_sound(words, ended) and ended.status == 0 else None

    def ended(self, folder: Path, words: Sequence[Word], data: bytes = b"") -> Ended | None:
        self.count += 1
        self.given = data
        with tempfile.TemporaryFile() as out, tempfile.TemporaryFile() as errors, tempfile.TemporaryFile() as given:
            given.write(data)
            given.seek(0)
            process = subprocess.Popen([self.rvstm, *words], cwd=folder, stdin=given, stdout=out, stderr=errors, preexec_fn=limit)
            began = time.monotonic()
            try:
                process.wait(SECONDS_A_RUN)
            except subprocess.TimeoutExpired:
                process.kill()
                process.wait()
                self.fail(words, f"hangs, {time.monotonic() - began:.0f} s")
                return None
            out.seek(0)
            errors.seek(0)
            ended = Ended(out.read(), errors.read(), process.returncode)
        return ended if self.is_bounded(words, ended) else None

    def is_bounded(self, words: Sequence[Word], ended: Ended) -> bool:
        self.largest = max(self.largest, resource.getrusage(resource.RUSAGE_CHILDREN).ru_maxrss)
        if self.largest * 1024 > BYTES_A_RUN:
            return self.fail(words, f"took {self.largest} KiB")
        return ended.status in (0, 1, 2) or self.fail(words, f"status {ended.status}, {ended.errors[-200:]!r}")

    def is_sound(self, words: Sequence[Word], ended: Ended) -> bool:
        if ended.status == 0:
            return not ended.errors or self.fail(words, f"done, and says {ended.errors!r}")
        if ended.output and words[0] != "debug":
            return self.fail(words, f"refuses, and prints {ended.output[:80]!r}")
        is_one_line = ended.status != 1 or REFUSAL.match(ended.errors) is not None
        return is_one_line or self.fail(words, f"refuses with {ended.errors!r}")

    def fail(self, words: Sequence[Word], why: str) -> bool:
        """Prints why a run failed, and keeps its files. Returns that it is not right."""
        self.failed += 1
        kept = texts.kept_folder("fuzz-", filter(os.path.isfile, words))
        if self.given:
            (kept / "input").write_bytes(self.given)
        print(f"failed: {' '.join(map(str, words))}: {why}; its files are in {kept}", flush=True)
        return False


# ---- what is given a damaged file


def fuzz_block(runs: Runs, choice: Random, folder: Path, path: Path, schedule: Path) -> None:
    wanted = runs.run(folder, ["seq", path])
    if runs.run(folder, ["migrate", path, "--out", runs.migrated]) is not None:
        if runs.run(folder, ["seq", runs.migrated]) != wanted:
            runs.fail(["seq", runs.migrated], "prints another result than the file before it was migrated")
    workers = str(choice.choice([1, 2, 3, 8, 32]))
    ways: list[list[Word]] = [["run", path, "--workers", workers], ["drive", path, "--workers", workers, "--schedule", schedule]]
    for words in ways:
        found = runs.run(folder, words)
        if found is not None and found != wanted:
            runs.fail(words, "prints another result than seq")


def fuzz_session(runs: Runs, choice: Random, folder: Path, text: bytes) -> None:
    """Gives an input to a session, which has to answer as the model does."""
    frame_gas, workers = choice.choice([None, None, 1_000_000]), choice.choice([None, 1, 2, 3, 8, 32])
    most = choice.choice([LONGEST_FRAME, LONGEST_FRAME, 1_000])
    settings = Settings(most, frame_gas, choice.randrange(2) == 0, choice.randrange(2) == 0, workers)
    came = runs.ended(folder, settings.words(), text)
    if came is None:
        return
    difference = comparing.first_difference(came, text, settings, comparing.model_of(runs.rvstm, settings))
    if difference:
        runs.fail(settings.words(), difference)


def data_of(runs: Runs, choice: Random, kind: FileKind, others: Sequence[Seed]) -> Seed:
    """A file of a kind, mostly damaged, and the folder in which it is used."""
    seed, head = choice.choice(others), choice.choice(texts.HEADS)
    if kind is FileKind.STORAGE:
        return Seed(seed.folder, storage_block(choice, head, programs.make(runs.rvstm, choice, runs.out)))
    if kind is FileKind.SESSION:
        return Seed(seed.folder, damaged_session(choice, seed.data, others))
    data = seed.data.replace(texts.HEADS[0].encode(), head.encode(), 1) if kind is FileKind.BLOCK else seed.data
    return Seed(seed.folder, damaged(choice, data, others))


def fuzz_file(runs: Runs, choice: Random, kind: FileKind, seed: Seed) -> None:
    folder, path, block = seed.folder, runs.damaged, COUNTER / "counter.block"
    path.write_bytes(seed.data)
    match kind:
        case FileKind.ELF:
            runs.run(folder, ["dis", path])
            text = texts.block_text([path], {}, [CallLine(0, 100_000, bytes(1))] * 3, choice.choice(texts.HEADS))
            runs.second.write_text(text, encoding="utf-8")
            fuzz_block(runs, choice, folder, runs.second, path)
        case FileKind.BLOCK | FileKind.STORAGE:
            runs.second.write_text(texts.lines_of(choice.randrange(2) for _ in range(2000)), encoding="utf-8")
            fuzz_block(runs, choice, folder, path, runs.second)
        case FileKind.SOURCE:
            if runs.run(folder, ["asm", path, "--out", runs.out]) is not None:
                runs.run(folder, ["dis", runs.out])
        case FileKind.SCHEDULE:
            runs.run(COUNTER, ["drive", block, "--workers", "2", "--schedule", path])
        case FileKind.SESSION:
            fuzz_session(runs, choice, folder, seed.data)
        case FileKind.LINES:
            runs.run(COUNTER, ["debug", block, "--call", "1"], seed.data)


def run(given: argparse.Namespace) -> int:
    end, choice, kinds = time.monotonic() + given.seconds, random.Random(given.seed), seeds()
    with texts.new_folder() as place:
        runs = Runs(given.rvstm, place)
        while time.monotonic() < end:
            kind = choice.choice(list(kinds))
            fuzz_file(runs, choice, kind, data_of(runs, choice, kind, kinds[kind]))
    print(f"{runs.count} runs, {runs.failed} failed; the largest took {runs.largest} KiB")
    return 1 if runs.failed else 0


COMMAND = Command(
    "Feeds damaged files to the program, and prints 'N runs, M failed'.",
    "crates/rvstm/out/rvstm 60 1",
    run,
    (
        options.RVSTM,
        argument("seconds", metavar="SECONDS", type=float, help="how long it goes on"),
        argument("seed", metavar="SEED", type=int, nargs="?", default=0, help="one seed always gives the same files (0)"),
    ),
)
