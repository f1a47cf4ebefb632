"""What processes take: seconds, seconds of the processors, and memory, of whole runs and of sessions that go on."""

import os
import re
import resource
import select
import subprocess
import tempfile
import time
from collections.abc import Sequence
from dataclasses import dataclass
from pathlib import Path

from rvstm_developers.bench import tables
from rvstm_developers.running import Word
from rvstm_tools.errors import UserError
from rvstm_tools.sessions.answers import Done
from rvstm_tools.sessions.processes import Session
from rvstm_tools.sessions.requests import Request

SECONDS_BETWEEN_LOOKS = 0.02
PEAK = re.compile(rb"^VmHWM:\s+([0-9]+) kB$", re.M)


@dataclass(frozen=True)
class Spent:
    seconds: float
    processor: float  # seconds of all processors
    mebibytes: float  # 0 if it was so short that no look found it
    fault: str = ""  # what it said if it was refused


def peak_of(process: int) -> int:
    """The most memory that a running process had so far, in KiB; 0 if it has ended."""
    try:
        found = PEAK.search(Path(f"/proc/{process}/status").read_bytes())
    except OSError:
        return 0
    return int(found[1]) if found else 0


def most_memory(process: int) -> int:
    """Waits for a process to end, and returns the most memory that it had at the last look, in KiB."""
    handle, most = os.pidfd_open(process), 0
    try:
        while not select.select([handle], [], [], SECONDS_BETWEEN_LOOKS)[0]:
            most = max(most, peak_of(process))
    finally:
        os.close(handle)
    return most


def timed(words: Sequence[Word], place: Path, source: str = os.devnull, result: str = os.devnull) -> Spent:
    """Runs a command in a folder. Its input is `source` there, and what it prints goes to `result`.

    The system counts what this script had at most as memory of its child, too. So it counts only if it is more than that.
    """
    before = resource.getrusage(resource.RUSAGE_SELF).ru_maxrss
    with open(place / source, "rb") as given, open(place / result, "wb") as out, tempfile.TemporaryFile() as said:
        start = time.perf_counter()
        process = subprocess.Popen(words, cwd=place, stdin=given, stdout=out, stderr=said)
        most = most_memory(process.pid)
        _, status, usage = os.wait4(process.pid, 0)
        seconds = time.perf_counter() - start
        process.returncode = os.waitstatus_to_exitcode(status)
        said.seek(0)
        fault = "" if status == 0 else said.read().decode().strip() or f"ended with status {process.returncode}"
    kibibytes = usage.ru_maxrss if usage.ru_maxrss > before + 1_024 else most
    return Spent(seconds, usage.ru_utime + usage.ru_stime, kibibytes / 1_024, fault)


def sound(spent: Spent) -> Spent:
    if spent.fault:
        raise UserError(spent.fault)
    return spent


# ---- processes that go on


def milliseconds_of(process: int) -> float:
    """The processor time of a process that runs, by Linux's clock of it."""
    return 1000 * time.clock_gettime((~process << 3) | 2)


def resident(process: int) -> int:
    return int(Path(f"/proc/{process}/statm").read_text(encoding="utf-8").split()[1]) * os.sysconf("SC_PAGE_SIZE")


@dataclass(frozen=True)
class Answered:
    """The bytes of a good answer, the milliseconds until it was read, and those that the processors worked."""

    body: bytes
    elapsed: float
    processor: float


def answered(session: Session, request: Request) -> Answered:
    """Asks for what must not be refused."""
    began, before = time.perf_counter(), milliseconds_of(session.process.pid)
    answer = session.ask(request)
    if not isinstance(answer, Done):
        said = session.end().said() if answer is None else answer.text().decode().strip()
        raise UserError(f"a request is answered by {said or 'nothing'}")
    return Answered(answer.body, 1000 * (time.perf_counter() - began), milliseconds_of(session.process.pid) - before)


# ---- commands that are timed in turn


@dataclass(frozen=True)
class Times:
    """Of each command its milliseconds in each round, and what it printed last."""

    rounds: list[list[float]]
    outputs: list[bytes]

    def ratios(self, first: int = 0) -> list[float]:
        """How many times as fast as the command of a number each command after it is."""
        return [tables.ratio(self.rounds[first], spent) for spent in self.rounds[first + 1 :]]

    def check(self, name: str, first: int = 0) -> None:
        if any(output != self.outputs[first] for output in self.outputs[first:]):
            raise UserError(f"{name}: a run differs from seq")


def times_of(commands: Sequence[Sequence[Word]], place: Path, count: int, output: int = subprocess.PIPE) -> Times:
    """Runs all commands in turn, in so many rounds."""
    times = Times([[] for _ in commands], [b""] * len(commands))
    for _ in range(count):
        for number, words in enumerate(commands):
            start = time.perf_counter()
            done = subprocess.run(words, cwd=place, stdout=output, stderr=output, check=True)
            times.rounds[number].append(1000 * (time.perf_counter() - start))
            times.outputs[number] = done.stdout
    return times
