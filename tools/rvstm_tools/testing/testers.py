"""Runs tests, several at once, and writes the gas of lines `gas at most` again if that is asked for."""

import re
import time
from collections.abc import Iterator, Mapping, Sequence
from concurrent.futures import ThreadPoolExecutor
from dataclasses import dataclass

from rvstm_tools.programs.running import Runner
from rvstm_tools.testing.listed import ListedTest
from rvstm_tools.testing.runs import Miss, Run

MOST_GAS = re.compile(r"(gas\s+at\s+most\s+)[0-9]+")


@dataclass(frozen=True)
class Planned:
    test: ListedTest
    variant: str = ""

    def name(self) -> str:
        return f"{self.test.path}, {self.variant}" if self.variant else f"{self.test.path}"


@dataclass(frozen=True)
class Tried:
    planned: Planned
    refusal: str  # why the block did not run; empty if it ran
    misses: Sequence[Miss]  # the lines that are not met, if it ran
    gas: Sequence[int]  # of each call, if it ran
    most_gas: Mapping[int, int]  # for each line `gas at most` what came
    seconds: float
    ends: Mapping[int, str]  # how the calls ended whose lines are not met

    @property
    def test(self) -> ListedTest:
        return self.planned.test

    @property
    def missed(self) -> int:
        """How many lines are not met: all, if the block did not run."""
        return self.test.count() if self.refusal else len(self.misses)


class Tester:
    def __init__(self, runner: Runner, *, is_update: bool = False, jobs: int = 1) -> None:
        self.runner = runner
        self.is_update = is_update  # whether lines `gas at most` are written again, and never count as not met
        self.jobs = jobs  # how many run at once

    def tried(self, tests: Sequence[ListedTest], variants: Sequence[str] = ()) -> Iterator[Tried]:
        """Runs each test by its own programs, and again by each variant that has others. The order is this one."""
        plans = [plan for test in tests for plan in plans_of(test, variants)]
        with ThreadPoolExecutor(self.jobs) as pool:
            try:
                yield from pool.map(self.try_one, plans)
            finally:
                pool.shutdown(cancel_futures=True)

    def try_one(self, plan: Planned) -> Tried:
        begun = time.monotonic()
        run = Run(self.runner, plan.test, plan.test.programs_by(plan.variant))
        if run.refusal:
            return Tried(plan, run.refusal, [], [], {}, time.monotonic() - begun, {})
        most_gas = run.gas()
        misses = [miss for miss in run.misses() if not (self.is_update and miss.line in most_gas)]
        gas = [receipt.gas for receipt in run.receipts]
        return Tried(plan, "", misses, gas, most_gas, time.monotonic() - begun, run.ends(misses))


def plans_of(test: ListedTest, variants: Sequence[str]) -> list[Planned]:
    with_others = [variant for variant in variants if test.has(variant)]
    return [Planned(test, variant) for variant in ["", *with_others]]


def updated(tried: Sequence[Tried]) -> Iterator[str]:
    """Writes the gas that came into the lines `gas at most` of each list whose other lines are all met, the most of its runs.
    Says of each list that it changes that it did."""
    by_list: dict[int, list[Tried]] = {}
    for one in tried:
        by_list.setdefault(id(one.test), []).append(one)
    for runs in by_list.values():
        test, is_passed = runs[0].test, not any(run.missed for run in runs)
        if is_passed and update(test, {line: max(run.most_gas[line] for run in runs) for line in runs[0].most_gas}):
            yield f"updated {test.path}"


def update(test: ListedTest, most_gas: Mapping[int, int]) -> bool:
    """Writes the gas that came into the lines `gas at most` of a list. All other bytes stay. Whether it changed."""
    lines = list(test.file.lines)
    for number, gas in most_gas.items():
        lines[number - 1] = MOST_GAS.sub(rf"\g<1>{gas}", lines[number - 1], count=1)
    if lines == test.file.lines:
        return False
    with open(test.path, "w", encoding="utf-8", newline="") as file:
        file.writelines(lines)
    return True
