"""Which lines of the programs random calls ran: calls that end in a new way are replayed beside the search."""

import os
import queue
import threading
from collections.abc import Iterable, Iterator
from dataclasses import dataclass
from pathlib import Path
from typing import NamedTuple

from rvstm_tools.debugging import coverage, sources
from rvstm_tools.debugging.coverage import Covered, SourceFile, Steps
from rvstm_tools.debugging.sessions import CallOf
from rvstm_tools.debugging.sources import SourceLine
from rvstm_tools.errors import UserError
from rvstm_tools.exploring.descriptions import Description
from rvstm_tools.exploring.runs import DrawnCall, SequenceRun
from rvstm_tools.programs import finding, running
from rvstm_tools.programs.elf import ElfFile
from rvstm_tools.texts import blocks
from rvstm_tools.texts.blocks import CallLine, Rules
from rvstm_tools.texts.keys import Storage
from rvstm_tools.texts.results import End, Receipt

MOST_WAYS = 1000  # that a worker keeps apart
MOST_KEYS = 1000  # of a storage over which a call is replayed


class Way(NamedTuple):
    """How a call ended. Calls that end in one way mostly ran the same instructions."""

    line: int
    end: End
    pc: int
    gas: int


@dataclass(frozen=True)
class Sample:
    way: Way
    program: str
    gas: int
    data: bytes
    storage: Storage


class Sampler:
    """Takes a sample of each way in which calls of a run end; of no run none."""

    def __init__(self, run: SequenceRun | None) -> None:
        self.run = run
        self.ways: set[Way] = set()
        self.samples: list[Sample] = []
        if run:
            run.watch = self.see

    def see(self, call: DrawnCall, outcome: Receipt) -> None:
        assert self.run
        way = Way(call.kind.line, outcome.end, outcome.pc, outcome.gas)
        if way in self.ways or len(self.ways) >= MOST_WAYS or len(self.run.storage.data) > MOST_KEYS:
            return
        self.ways.add(way)
        storage = self.run.storage.data | {key: old for key, old in self.run.storage.changed.items() if old is not None}
        for key, old in self.run.storage.changed.items():
            if old is None:
                storage.pop(key, None)
        self.samples.append(Sample(way, call.kind.program, call.kind.gas, call.kind.data(call.values), storage))

    def taken(self) -> list[Sample]:
        samples, self.samples = self.samples, []
        return samples


class Reached:
    """The lines of all programs, and those that calls ran. A thread replays the samples that it is given."""

    def __init__(self, rvstm: Path, description: Description) -> None:
        self.rvstm = rvstm
        self.rules = description.blocks.block.rules
        self.programs = {name: LinesOf(path) for name, path in description.programs.items()}
        self.ways: set[Way] = set()
        self.samples: queue.SimpleQueue[Sample | None] = queue.SimpleQueue()
        self.replayed = 0  # how many samples
        self.is_ended = False
        self.thread = threading.Thread(target=self._replay_all, daemon=True)

    def add(self, samples: Iterable[Sample]) -> None:
        if self.thread.ident is None:
            self.thread.start()  # not before, since a process that forks has no other thread
        for sample in samples:
            if sample.way not in self.ways:
                self.ways.add(sample.way)
                self.samples.put(sample)

    @property
    def lack(self) -> str:
        """Why the lines of a program are not known; empty if those of all are."""
        return next((program.lack for program in self.programs.values() if program.lack), "")

    def said(self) -> str:
        """How many lines are reached, or instructions if the lines of a program are not known."""
        programs = self.programs.values()
        has_lines = not self.lack
        reached = sum(len(program.reached_lines() if has_lines else program.steps.counts) for program in programs)
        whole = sum(len(program.all_lines() if has_lines else program.words) for program in programs)
        return f"{reached} of {whole} {'lines' if has_lines else 'instructions'} reached"

    def covered(self, seconds: float) -> Iterator[str]:
        """What `rvstm-tools coverage` prints of the replayed calls. It waits at most so many seconds for replays."""
        if self.lack:
            yield f"which branches no call reached is not known: {self.lack}"
            return
        self.samples.put(None)
        if self.thread.ident is not None:
            self.thread.join(seconds)
        if self.thread.is_alive():
            yield f"reached by {self.replayed} of {len(self.ways)} calls that ended each in another way:"
        covered = Covered(SourceFile)
        for program in self.programs.values():
            coverage.add_program(covered, program.path, program.steps)
        for path in sorted(covered):
            if not path.startswith(finding.sdk_prefix()):
                yield from coverage.source_lines(os.path.relpath(path), covered[path])

    def end(self) -> None:
        self.is_ended = True
        self.samples.put(None)

    def _replay_all(self) -> None:
        while (sample := self.samples.get()) and not self.is_ended:
            try:
                self.programs[sample.program].replay(self.rvstm, self.rules, sample)
                self.replayed += 1
            except (UserError, OSError):
                return  # the search goes on without it, and reports what stops it


class LinesOf:
    """The instructions of a program, and its lines if the program with lines is beside it."""

    def __init__(self, path: str) -> None:
        self.path = path
        self.steps = Steps()
        self.words: list[int] = []
        self.lines: dict[int, set[SourceLine]] = {}
        self.lack = ""  # why its lines are not known
        try:
            self.words = list(ElfFile(path).words())
            self.lines = self._lines()
        except UserError as error:
            self.lack = f"{error}"

    def _lines(self) -> dict[int, set[SourceLine]]:
        """The lines of each instruction, without those of the SDK."""
        tool = sources.address_tool()
        chains = sources.chains_of(coverage.lines_program(self.path, tool), self.words, tool)
        sdk = finding.sdk_prefix()
        found = {address: filter(None, (sources.source_line(one.line) for one in chain)) for address, chain in chains.items()}
        return {address: {line for line in lines if not line.path.startswith(sdk)} for address, lines in found.items()}

    def all_lines(self) -> set[SourceLine]:
        return set[SourceLine]().union(*self.lines.values())

    def reached_lines(self) -> set[SourceLine]:
        return set[SourceLine]().union(*(self.lines.get(address, set()) for address in list(self.steps.counts)))

    def replay(self, rvstm: Path, rules: Rules, sample: Sample) -> None:
        text = blocks.text([self.path], sample.storage, [CallLine(0, sample.gas, sample.data)], rules)
        with running.temporary_file(text, ".block") as made:
            self.steps.add(CallOf(rvstm, made, 0))
