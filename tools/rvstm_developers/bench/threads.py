import argparse
import subprocess
from collections.abc import Iterable, Sequence
from dataclasses import dataclass
from pathlib import Path

from rvstm_developers import options, texts
from rvstm_developers.bench import blocks, processes, tables
from rvstm_developers.bench.blocks import FOLDER, SPEED_PROGRAMS, TimedBlock, TimedCall
from rvstm_developers.bench.pictures import COLOURS, LinePicture, Point
from rvstm_developers.running import Word
from rvstm_tools.options import Command, argument

WORKERS = (1, 2, 4, 32)
TIMES = 45
PROGRAM_CALLS, PROGRAM_GAS, PROGRAM_TIMES = 64, 1_000_000, 9
MARGIN, BETWEEN = 60, 110  # pixels before the first number of workers, and between two


@dataclass(frozen=True)
class ThreadsRow:
    """A block: milliseconds of files and text, of `seq` and of each run without them, and two rows of ratios."""

    name: str
    calls: int
    empty: float
    times: list[float]
    whole: list[float]
    unread: list[float]

    def speed(self, number: int) -> float:
        """How many times as fast as `seq` a run is without files and text."""
        return self.times[0] / self.times[number + 1]


def runs_of(rvstm: Path, block: str) -> list[list[Word]]:
    words: list[list[Word]] = [[rvstm, "seq", block]]
    return words + [[rvstm, "run", block, "--workers", str(count)] for count in WORKERS]


def print_ratios(title: str, rows: Iterable[tuple[str, list[float]]]) -> None:
    cells = ([name, *(f"{ratio:.2f}" for ratio in ratios)] for name, ratios in rows)
    tables.print_table([title, *map(tables.of_workers, WORKERS)], cells)


def program_ratios(rvstm: Path, place: Path, number: int) -> list[float]:
    name = SPEED_PROGRAMS[number]
    calls = [TimedCall(PROGRAM_GAS, blocks.speed_calls(number)[0].data)] * PROGRAM_CALLS
    (place / f"{name}.block").write_text(TimedBlock(name, name, calls).text(FOLDER / f"programs/{name}.elf"), encoding="utf-8")
    times = processes.times_of(runs_of(rvstm, f"{name}.block"), place, PROGRAM_TIMES)
    times.check(name)
    return times.ratios()


def measured(rvstm: Path, place: Path, block: TimedBlock) -> ThreadsRow:
    blocks.assemble(rvstm, place, block.source)
    (place / "calls.block").write_text(block.text(), encoding="utf-8")
    (place / "empty.block").write_text(block.empty().text(), encoding="utf-8")
    commands = runs_of(rvstm, "calls.block")
    times = processes.times_of([[rvstm, "seq", "empty.block"], *commands], place, TIMES)
    times.check(block.name, first=1)
    empty, *best = (min(spent) for spent in times.rounds)
    unread = processes.times_of(commands, place, TIMES, subprocess.DEVNULL)
    return ThreadsRow(block.name, len(block.calls), empty, [spent - empty for spent in best], times.ratios(first=1), unread.ratios())


def picture(rows: Sequence[ThreadsRow]) -> LinePicture:
    places = [2 * MARGIN + BETWEEN * number for number in range(len(WORKERS))]
    made = LinePicture(720, 380, MARGIN, places[-1], 320)
    greatest = max(2.0, *(row.speed(number) for row in rows for number in range(len(WORKERS))))
    scale = (made.bottom - made.top) / (1.1 * greatest)
    for number in range(int(1.1 * greatest) + 1):
        made.mark_y(made.bottom - scale * number, str(number))
    for place, workers in zip(places, WORKERS):
        made.mark_x(place, str(workers))
    made.title("workers", "times as fast as seq")
    free = made.bottom
    for number, row in sorted(enumerate(rows), key=lambda one: one[1].speed(len(WORKERS) - 1)):
        points = [Point(place, made.bottom - scale * row.speed(at)) for at, place in enumerate(places)]
        made.line(points, COLOURS[number])
        free = min(free, points[-1].y + 4)
        made.label(Point(made.right + 12, free), row.name, COLOURS[number])
        free -= 16
    return made


def run(given: argparse.Namespace) -> int:
    with texts.new_folder() as place:
        if given.programs:
            rates = [program_ratios(given.rvstm, place, number) for number in range(len(SPEED_PROGRAMS))]
            print_ratios("files and text included", zip(SPEED_PROGRAMS, rates))
            return 0
        made = (blocks.compute(), blocks.transfers(), blocks.hot_key(), blocks.hot_sum(), blocks.chain())
        rows = [measured(given.rvstm, place, block) for block in made]
    tables.print_head(["block", "calls", "files and text", "seq", *map(tables.of_workers, WORKERS)])
    for row in rows:
        cells = [f"{spent:.1f} ms, {row.speed(number):.2f}" for number, spent in enumerate(row.times[1:])]
        tables.print_row([row.name, str(row.calls), f"{row.empty:.1f} ms", f"{row.times[0]:.1f} ms", *cells])
    print()
    print_ratios("files and text included", [(row.name, row.whole) for row in rows])
    print()
    print_ratios("files and text included, output not read", [(row.name, row.unread) for row in rows])
    if given.picture:
        picture(rows).write(given.picture)
    return 0


COMMAND = Command(
    "Times `rvstm run` with 1, 2, 4 and 32 workers beside `rvstm seq` on five blocks, and draws a picture.",
    "crates/rvstm/out/rvstm bench/threads.svg",
    run,
    (
        options.RVSTM,
        options.PICTURE,
        argument("--programs", action="store_true", help="a table alone, for 64 calls of each program of speed.block, a million gas each"),
    ),
)
