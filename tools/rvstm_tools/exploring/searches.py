"""The search for a sequence that breaks something, on all processors."""

import collections
import itertools
import math
import multiprocessing
import random
import signal
import time
from collections.abc import Callable, Iterator
from dataclasses import dataclass, field
from multiprocessing import connection
from multiprocessing.connection import Connection
from multiprocessing.context import ForkProcess
from pathlib import Path

from rvstm_tools import errors
from rvstm_tools.errors import UserError
from rvstm_tools.exploring import runs
from rvstm_tools.exploring import saved as saving
from rvstm_tools.exploring.descriptions import Description
from rvstm_tools.exploring.reached import Sample, Sampler
from rvstm_tools.exploring.runs import Broken, Counted, DrawnCall, SequenceRun
from rvstm_tools.exploring.saved import SavedCall

LENGTH = 100  # calls of a sequence, if no other number is asked for
MOST_AT_ONCE = 16  # calls of a block
LEAST_SECONDS = 1e-9
TICK = 0.2  # seconds between two looks at the time
FORK = multiprocessing.get_context("fork")
"""Workers begin with what the parent has read: expressions and models are code, which can't be handed over."""


@dataclass(frozen=True)
class Limits:
    calls: int
    length: int
    seconds: float | None
    seed: int
    first: int = 0  # the number of the first sequence

    def length_of(self, sequence: int) -> int:
        """How many calls a sequence has at most; none if the search ends before it."""
        return min(self.length, self.calls - (sequence - self.first) * self.length)

    def sequences(self) -> int:
        return math.ceil(self.calls / self.length)

    def place_of(self, sequence: int, at: int) -> int:
        return (sequence - self.first) * self.length + at + 1


@dataclass(frozen=True)
class Found:
    """What was found: the number of the sequence, its calls up to the one that breaks something, and what that is."""

    sequence: int
    calls: list[SavedCall]
    broken: Broken


@dataclass(frozen=True)
class Made:
    """What came of a sequence, or of as much of it as there was time for."""

    sequence: int
    calls: int
    counts: collections.Counter[Counted]
    is_whole: bool
    found: Found | None
    samples: list[Sample]  # calls that ended in a new way


@dataclass(frozen=True)
class Refused:
    text: str


class Sequence:
    def __init__(self, run: SequenceRun, limits: Limits, number: int) -> None:
        self.run = run
        self.number = number
        self.most = limits.length_of(number)
        self.choice = random.Random(f"{limits.seed}:{number}")
        self.calls: list[DrawnCall] = []

    def broken(self, deadline: float) -> Broken | None:
        """What it breaks. It ends early if the time is over."""
        broken = self.run.begin()
        while not broken and len(self.calls) < self.most and time.monotonic() < deadline:
            count = min(1 + self.choice.randrange(MOST_AT_ONCE), self.most - len(self.calls))
            seen = list(self.run.seen)
            part = [runs.drawn_call(self.choice, self.run.description.kinds, seen) for _ in range(count)]
            if self.run.description.time and self.calls:
                part[0].step = self.run.description.time.drawn(self.choice)
            self.calls += part
            broken = self.run.go_on(part)
        return broken or self.run.end()

    def made(self, deadline: float, sampler: Sampler) -> Made:
        self.run.counts.clear()
        calls = self.run.calls
        broken = self.broken(deadline)
        found = Found(self.number, saving.saved(self.calls[: broken.at + 1]), broken) if broken else None
        counts, is_whole = self.run.counts.copy(), len(self.calls) >= self.most
        return Made(self.number, self.run.calls - calls, counts, is_whole, found, sampler.taken())


@dataclass
class Task:
    """What a worker does: every `step`th sequence from the first one on, until the time is over."""

    rvstm: Path
    description: Description
    limits: Limits
    first: int
    step: int
    deadline: float
    has_samples: bool
    others: list[Connection] = field(default_factory=list)
    """Of the parent. A worker shuts them, so that it notices that the parent has gone."""

    def sequences(self) -> Iterator[int]:
        return itertools.takewhile(lambda number: self.limits.length_of(number) > 0, itertools.count(self.first, self.step))

    def do(self, to: Connection) -> None:
        """Sends what came of each sequence, up to one that breaks something."""
        signal.signal(signal.SIGINT, signal.SIG_IGN)  # the parent ends it, and it ends the session
        signal.signal(signal.SIGTERM, signal.SIG_DFL)
        for other in self.others:
            other.close()
        try:
            self._do(to)
        except BrokenPipeError:
            return
        except (UserError, OSError) as error:
            to.send(Refused(errors.reason(error)))

    def _do(self, to: Connection) -> None:
        with SequenceRun(self.rvstm, self.description) as run:
            sampler = Sampler(run if self.has_samples else None)
            for number in self.sequences():
                made = Sequence(run, self.limits, number).made(self.deadline, sampler)
                to.send(made)
                if made.found or not made.is_whole:
                    return


class Worker:
    def __init__(self, task: Task) -> None:
        self.output, to = FORK.Pipe(duplex=False)
        self.next = task.first  # all of its sequences below this one are made
        self.step = task.step
        task.others = [*task.others, self.output]
        self.process: ForkProcess = FORK.Process(target=task.do, args=(to,), daemon=True)
        self.process.start()
        to.close()

    def take(self) -> Made | None:
        """The next thing that it sends; None if it has ended."""
        try:
            made: Made | Refused = self.output.recv()
        except EOFError as error:
            self.process.join()
            if self.process.exitcode:
                raise RuntimeError(f"a worker ended with status {self.process.exitcode}") from error
            return None
        if isinstance(made, Refused):
            raise UserError(made.text)
        if made.is_whole and not made.found:
            self.next = made.sequence + self.step
        return made

    def kill(self) -> None:
        self.process.kill()
        self.process.join()
        self.output.close()


class Search:
    """Draws sequences until one breaks something, or as many calls are made as were asked for, or the time is over. Of several
    that break something the one with the lowest number counts, so that one seed finds the same on every machine."""

    def __init__(self, limits: Limits, watch: Callable[["Search", list[Sample]], None] | None = None) -> None:
        self.limits = limits
        self.watch = watch  # what sees it while it lasts, with calls that ended in a new way
        self.begun = time.monotonic()
        self.seconds = 0.0  # how long it lasted
        self.calls = 0
        self.counts = collections.Counter[Counted]()
        self.next = limits.first  # all sequences below this one are made, and break nothing
        self.found: Found | None = None
        self._waiting: dict[int, Made] = {}  # those above it

    def search(self, rvstm: Path, description: Description, jobs: int) -> None:
        seconds = math.inf if self.limits.seconds is None else self.limits.seconds
        step = min(jobs, self.limits.sequences())
        workers: list[Worker] = []
        try:
            for at in range(step):
                others = [worker.output for worker in workers]
                deadline, is_watched = self.begun + seconds, self.watch is not None
                task = Task(rvstm, description, self.limits, self.limits.first + at, step, deadline, is_watched, others)
                workers.append(Worker(task))
            self._follow(workers)
        finally:
            for worker in workers:
                worker.kill()
            self._merge_all()
            self.seconds = time.monotonic() - self.begun

    def _follow(self, workers: list[Worker]) -> None:
        """Takes what the workers send until all of them have ended, or none can find anything before what is found."""
        active = {worker.output: worker for worker in workers}
        while active and not (self.found and all(worker.next >= self.found.sequence for worker in active.values())):
            samples = []
            for output in connection.wait(list(active), TICK):
                assert isinstance(output, Connection)
                made = active[output].take()
                if made is None:
                    del active[output]
                    continue
                samples += made.samples
                self._take(made)
            self.next = min(worker.next for worker in workers)
            self._merge(self.next)
            if self.watch:
                self.watch(self, samples)

    def _take(self, made: Made) -> None:
        self._waiting[made.sequence] = made
        if made.found and (self.found is None or made.sequence < self.found.sequence):
            self.found = made.found

    def _merge(self, end: int) -> None:
        for number in [number for number in self._waiting if number < end]:
            made = self._waiting.pop(number)
            self.calls += made.calls
            self.counts += made.counts

    def _merge_all(self) -> None:
        """Counts what is left, up to the sequence that breaks something."""
        last = self.found.sequence if self.found else max(self._waiting, default=0)
        self._merge(last + 1)

    def made(self) -> int:
        return self.calls + sum(made.calls for made in self._waiting.values())

    def speed(self) -> float:
        """Calls a second."""
        return self.made() / max(self.seconds or time.monotonic() - self.begun, LEAST_SECONDS)
