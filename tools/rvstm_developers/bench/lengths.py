import argparse
import math
import os
import statistics
import subprocess
import time
from collections.abc import Sequence
from dataclasses import dataclass
from pathlib import Path

from rvstm_developers import options, texts
from rvstm_developers.bench import blocks, processes, tables
from rvstm_developers.bench.blocks import TimedBlock
from rvstm_developers.bench.pictures import COLOURS, DARK_GREY, GREY, LinePicture, Point
from rvstm_developers.running import Word
from rvstm_tools.errors import UserError
from rvstm_tools.options import Command

WORKERS = (2, 4)
LENGTHS = (700, 1_000, 3_000, 10_000, 30_000, 100_000, 300_000, 1_000_000)
INSTRUCTIONS_A_BLOCK = 30_000_000
FEWEST_CALLS, MOST_CALLS = 32, 1_000
ROUNDS = 45
YARDSTICK_LENGTH, YARDSTICK_CALLS = 300_000, 25
PROCESSORS, QUIET = 4, 3.6
COLUMNS = (
    "instructions a call", "calls", "`seq`, ms", "2 workers", "4 workers", f"what {PROCESSORS} processors had",
    "4 workers, quiet rounds", "quiet rounds",
)


@dataclass(frozen=True)
class Rounds:
    length: int
    calls: int
    times: list[list[float]]  # of each round in milliseconds: `seq` and the runs
    at_once: list[list[float]]  # and the processes that ran at once

    def ratios(self, number: int) -> list[float]:
        return [one[0] / one[number + 1] for one in self.times]

    def ratio(self, number: int) -> float:
        return statistics.median(self.ratios(number))

    def cells(self, fastest: float) -> list[str]:
        """The row of the table. The fastest process of all rounds says what processors have."""
        room = [sum(fastest / spent for spent in one) for one in self.at_once]
        quiet = [ratio for ratio, had in zip(self.ratios(len(WORKERS) - 1), room) if had >= QUIET]
        figures = [*(self.ratio(number) for number in range(len(WORKERS))), statistics.median(room)]
        return [
            f"{self.length:,}", f"{self.calls:,}", tables.middle(one[0] for one in self.times),
            *(f"{figure:.2f}" for figure in figures), tables.middle(quiet, ".2f") if quiet else "-", f"{len(quiet)} of {ROUNDS}",
        ]


def times_at_once(words: Sequence[Word], place: Path) -> list[float]:
    """The times in milliseconds of as many processes of a command as there are processors, each on one of its own."""
    begun, starts, times = {}, {}, []
    for processor in sorted(os.sched_getaffinity(0))[:PROCESSORS]:
        start = time.perf_counter()
        process = subprocess.Popen(words, cwd=place, stdout=subprocess.DEVNULL)
        os.sched_setaffinity(process.pid, {processor})
        begun[process.pid], starts[process.pid] = process, start
    while begun:
        found = os.waitid(os.P_ALL, 0, os.WEXITED | os.WNOWAIT)
        assert found is not None
        times.append(1000 * (time.perf_counter() - starts[found.si_pid]))
        if begun.pop(found.si_pid).wait():
            raise UserError("a run failed")
    return times


def rounds_of(rvstm: Path, place: Path, length: int) -> Rounds:
    count = max(FEWEST_CALLS, min(MOST_CALLS, INSTRUCTIONS_A_BLOCK // length))
    (place / "calls.block").write_text(TimedBlock("", "work", blocks.mixing(length, count)).text(), encoding="utf-8")
    commands: list[list[Word]] = [[rvstm, "seq", "calls.block"]]
    commands += [[rvstm, "run", "calls.block", "--workers", str(workers)] for workers in WORKERS]
    yardstick: list[Word] = [rvstm, "seq", "yardstick.block"]
    found = Rounds(length, count, [], [])
    for _ in range(ROUNDS):
        times = processes.times_of(commands, place, 1)
        times.check(f"{length:,} instructions")
        found.times.append([spent for (spent,) in times.rounds])
        found.at_once.append(times_at_once(yardstick, place))
    return found


def picture(found: Sequence[Rounds]) -> LinePicture:
    """Speed against `seq` by the length of a call, a line for each number of workers."""
    made = LinePicture(720, 380, 60, 620, 320)
    scale = (made.bottom - made.top) / 4.2
    low, high = math.log10(LENGTHS[0]), math.log10(LENGTHS[-1])

    def x(length: int) -> float:
        return made.left + (made.right - made.left) * (math.log10(length) - low) / (high - low)

    for number in range(5):
        made.mark_y(made.bottom - scale * number, str(number), DARK_GREY if number == 1 else GREY)
    for length in (1_000, 10_000, 100_000, 1_000_000):
        made.mark_x(x(length), f"{length:,}")
    made.title("instructions a call", "times as fast as seq")
    for number, workers in enumerate(WORKERS):
        points = [Point(x(one.length), made.bottom - scale * one.ratio(number)) for one in found]
        made.line(points, COLOURS[number])
        made.label(Point(made.right + 10, points[-1].y + 4), tables.of_workers(workers), COLOURS[number])
    return made


def run(given: argparse.Namespace) -> int:
    with texts.new_folder() as place:
        blocks.assemble(given.rvstm, place, "work")
        yardstick = TimedBlock("", "work", blocks.mixing(YARDSTICK_LENGTH, YARDSTICK_CALLS)).text()
        (place / "yardstick.block").write_text(yardstick, encoding="utf-8")
        found = [rounds_of(given.rvstm, place, length) for length in LENGTHS]
    fastest = min(spent for one in found for each in one.at_once for spent in each)
    tables.print_table(COLUMNS, [one.cells(fastest) for one in found])
    if given.picture:
        picture(found).write(given.picture)
    return 0


COMMAND = Command(
    "Times `rvstm run` with 2 and 4 workers beside `rvstm seq` on calls of 700 to 1,000,000 instructions, and draws a picture.",
    "crates/rvstm/out/rvstm bench/lengths.svg",
    run,
    (options.RVSTM, options.PICTURE),
)
