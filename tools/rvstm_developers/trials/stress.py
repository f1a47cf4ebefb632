import argparse
import os
import random
import signal
import subprocess
import sys
import time
from collections.abc import Iterator
from dataclasses import dataclass
from pathlib import Path
from random import Random

from rvstm_developers import comparing, options, running, texts
from rvstm_developers.drawing import blocks, sessions
from rvstm_tools.options import Command, argument
from rvstm_tools.programs.pipes import Ended
from rvstm_tools.programs.running import temporary_file
from rvstm_tools.sessions import requests

WORKER_NUMBERS = (1, 2, 3, 4, 5, 8, 13, 16, 32)
RUNS_A_BLOCK = 4
BLOCKS_A_SESSION = 3
LONGEST_SCHEDULE = 1_000_000
NOT_DONE = b"rvstm: drive NotDone 1\n"
MOST_WRITES = 256


@dataclass(frozen=True)
class EndedWay:
    name: str
    ended: Ended
    counting_workers: int | None = None


def driven(rvstm: Path, folder: Path, block: Path, workers: int, choice: Random) -> Ended:
    entries, done = 1_000, Ended(b"", NOT_DONE, 1)
    while entries <= LONGEST_SCHEDULE and done.errors == NOT_DONE:
        with temporary_file(texts.lines_of(choice.randrange(workers) for _ in range(entries)), ".schedule") as path:
            done = running.run([rvstm, "drive", block, "--workers", str(workers), "--schedule", path], folder)
        entries *= 4
    return done


def ways(rvstm: Path, folder: Path, block: Path, choice: Random) -> Iterator[EndedWay]:
    for _ in range(RUNS_A_BLOCK):
        workers = choice.choice(WORKER_NUMBERS)
        ended = running.run([rvstm, "run", block, "--workers", str(workers), "--counts"], folder)
        yield EndedWay(f"run by {workers} workers", ended, workers)
    workers = choice.choice(WORKER_NUMBERS)
    yield EndedWay(f"drive by {workers} workers", driven(rvstm, folder, block, workers, choice))


def most_steps(calls: int, gas: int, workers: int, executions: int) -> int:
    """How many steps, asks aside, workers make at most on so many calls of at most so much gas, in so many executions.

    The clause `bounded` of `workers::Executor::run_block` has: all steps <= all asks + the reads + the work, and the work
    <= (calls + incarnations) * (work of one incarnation). The counts have neither reads nor incarnations, but: an aborted
    call is executed again, so there are `executions - calls` aborts. A call parks on a lower one at most once for each
    abort of that one, whose next execution moves the estimates away. Each abort and each park readies one call again at
    most. Each execution and each park ends one run, which makes at most `gas // 200 + 1` reads.
    """
    aborts, reads = executions - calls, gas // 200 + 1
    parks = aborts * (calls - 1)
    of_incarnation = (workers + 1) * (reads + 2 * MOST_WRITES + 2) + 2 * calls * (reads + 3) + MOST_WRITES + 1
    return (calls + aborts + parks) * of_incarnation + (executions + parks) * reads


def is_bounded(text: str, workers: int, counts: bytes) -> bool:
    """Whether what all workers counted, in the last line of `--counts`, is within the bound of their block."""
    gases = [int(line.split()[2]) for line in text.splitlines() if line.startswith("call ")]
    words = counts.decode().split("all ")[-1].split()
    steps, asks, executions = (int(words[words.index(name) + 1]) for name in ("steps", "asks", "executions"))
    return steps - asks <= most_steps(len(gases), max(gases), workers, executions)


def is_wrong(way: EndedWay, wanted: Ended, text: str) -> bool:
    """Whether a run prints or ends otherwise than `seq`, or its workers make more steps than they may."""
    if (way.ended.status, way.ended.output) != (wanted.status, wanted.output):
        return True
    is_counted = way.counting_workers is not None and way.ended.status == 0
    return is_counted and not is_bounded(text, way.counting_workers or 0, way.ended.errors)


def busy() -> list[subprocess.Popen[bytes]]:
    """As many processes as there are processors, which keep them busy."""
    return [subprocess.Popen([sys.executable, "-c", "while True: pass"]) for _ in range(os.cpu_count() or 1)]


@dataclass
class Stress:
    rvstm: Path
    folder: Path
    place: Path
    choice: Random
    blocks: int = 0
    runs: int = 0
    sessions: int = 0
    different: int = 0

    def tell(self, name: str, text: bytes, file: str, how: object) -> None:
        """Prints what differs, and keeps the block or the input and the programs that were made for it."""
        self.different += 1
        kept = texts.kept_folder("stress-", [*self.place.glob("*.elf"), *self.place.glob("*.elf.s")])
        (kept / file).write_bytes(text.replace(f"{self.place}/".encode(), f"{kept}/".encode()))
        print(f"differs, {name}: {kept / file} {how}", flush=True)

    def compare_block(self, programs: list[str]) -> None:
        text, block = blocks.block_of(self.choice, programs), self.place / "random.block"
        block.write_text(text, encoding="utf-8")
        wanted = running.run([self.rvstm, "seq", block], self.folder)
        self.blocks += 1
        for way in ways(self.rvstm, self.folder, block, self.choice):
            self.runs += 1
            if is_wrong(way, wanted, text):
                self.tell(way.name, text.encode(), "differs.block", way.ended.errors)

    def compare_session(self, programs: list[str]) -> None:
        choice, made = self.choice, blocks.blocks_of(self.choice, programs)
        asked = sessions.session_of(choice, made, blocks.KEYS, self.folder, choice.choice((None, *WORKER_NUMBERS)))
        kind, text = choice.randrange(3), sessions.input_of(choice, asked.requests)
        if kind == 2:
            text, name = requests.text_of(asked.requests), "session begun again"
            difference = comparing.difference_after(self.rvstm, text, asked.settings, choice.randrange(len(asked.requests) + 1))
        else:
            name = "session at once" if kind == 0 else "session one by one"
            difference = comparing.difference(self.rvstm, text, asked.settings, is_at_once=kind == 0)
        self.sessions += 1
        if difference:
            self.tell(name, text, "differs.input", difference)


def run(given: argparse.Namespace) -> int:
    stop: list[bool] = []
    for number in (signal.SIGINT, signal.SIGTERM):
        signal.signal(number, lambda *_: stop.append(True))
    choice, contracts = random.Random(given.seed), blocks.contracts_of(given.folder)
    half, end = time.monotonic() + given.seconds / 2, time.monotonic() + given.seconds
    others: list[subprocess.Popen[bytes]] = []
    try:
        with texts.new_folder() as place:
            done = Stress(given.rvstm, given.folder, place, choice)
            while time.monotonic() < end and not stop:
                if not others and time.monotonic() > half:
                    others = busy()
                programs = choice.choice((contracts, None)) or blocks.made_programs(given.rvstm, place, choice)
                done.compare_block(programs)
                if done.blocks % BLOCKS_A_SESSION == 0:
                    done.compare_session(programs)
    finally:
        for process in others:
            process.kill()
    print(f"{done.blocks} blocks, {done.runs} runs, {done.sessions} sessions, {done.different} differ")
    return 1 if done.different else 0


COMMAND = Command(
    "Runs random blocks with random numbers of workers, at once, along random lists and in sessions, and compares with `rvstm seq`.",
    "crates/rvstm/out/rvstm tests/cases 60",
    run,
    (
        options.RVSTM,
        options.FOLDER,
        argument("seconds", metavar="SECONDS", type=float, help="how long it goes on"),
        argument("seed", metavar="SEED", type=int, nargs="?", help="repeats what was drawn; without it each run draws other things"),
    ),
)
