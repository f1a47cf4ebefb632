import argparse
import statistics
from collections.abc import Iterator
from dataclasses import dataclass
from pathlib import Path

from rvstm_developers import texts
from rvstm_developers.bench import blocks, slow_blocks, slow_sums, tables
from rvstm_developers.bench.processes import Spent, sound, timed
from rvstm_developers.bench.slow_sums import FRAMES, SumsFrame
from rvstm_developers.running import Word
from rvstm_tools.errors import UserError
from rvstm_tools.options import Command, argument, count
from rvstm_tools.programs import finding

WORKERS, ROUNDS = (2, 4, 8, 32), 9
MOST_TIMES, MOST_MILLISECONDS_MORE, MOST_MEBIBYTES_MORE = 1.05, 5, 64
BOUNDS = f"{MOST_TIMES} times the time in order and {MOST_MILLISECONDS_MORE} ms, and {MOST_MEBIBYTES_MORE} MiB more than in order"
COLUMNS = ("frame", "in order, ms", "workers", "ms", "times in order", "in time", "MiB more")


@dataclass(frozen=True)
class SumsRow:
    """A frame with so many workers: medians of milliseconds, and how much more memory it had at most than in order."""

    frame: str
    in_order: float
    workers: int
    by_workers: float
    mebibytes_more: float

    @property
    def is_in_time(self) -> bool:
        return self.by_workers <= MOST_TIMES * self.in_order + MOST_MILLISECONDS_MORE

    @property
    def is_within(self) -> bool:
        return self.is_in_time and self.mebibytes_more <= MOST_MEBIBYTES_MORE

    def cells(self) -> list[str]:
        ratio, in_time = f"{self.by_workers / self.in_order:.2f}", "yes" if self.is_in_time else "no"
        times = [f"{self.in_order:.1f}", f"{self.workers}", f"{self.by_workers:.1f}", ratio, in_time]
        return [self.frame, *times, f"{round(self.mebibytes_more)}"]


def check(frame: SumsFrame, answers: bytes, in_order: bytes, workers: int | None) -> None:
    """Refuses answers that are others than those in order, and calls that do not return."""
    if answers != in_order:
        raise UserError(f"{frame.name}: the answers with {workers} workers are others than in order")
    if answers.count(b" returned gas ") != len(frame.calls):
        raise UserError(f"{frame.name}: a call does not return: {answers[-200:]!r}")


def spent_by(rvstm: Path, place: Path, frame: SumsFrame, rounds: int) -> dict[int | None, list[Spent]]:
    """What the runs of a frame took in order (None) and with each number of workers, which are run in turn."""
    spent: dict[int | None, list[Spent]] = {workers: [] for workers in (None, *WORKERS)}
    in_order = b""
    for _ in range(rounds):
        for workers, runs in spent.items():
            words: list[Word] = [rvstm, "chain", "--brief", "--digest", *(["--workers", str(workers)] if workers else [])]
            runs.append(sound(timed(words, place, f"{frame.name}.requests", "answers")))
            answers = (place / "answers").read_bytes()
            in_order = in_order or answers
            check(frame, answers, in_order, workers)
    return spent


def rows_of(rvstm: Path, place: Path, frame: SumsFrame, rounds: int) -> Iterator[SumsRow]:
    slow_blocks.write_block(place, frame.name, frame.content())
    spent = spent_by(rvstm, place, frame, rounds)
    times = {workers: 1000 * statistics.median(run.seconds for run in runs) for workers, runs in spent.items()}
    most = {workers: max(run.mebibytes for run in runs) for workers, runs in spent.items()}
    for workers in WORKERS:
        yield SumsRow(frame.name, times[None], workers, times[workers], most[workers] - most[None])


def run(given: argparse.Namespace) -> int:
    if given.names:
        print("\n".join(f"{frame.name:12} {frame.what}" for frame in FRAMES))
        return 0
    asked = [frame for frame in FRAMES if not given.only or frame.name in given.only]
    rows: list[SumsRow] = []
    with texts.new_folder() as place:
        for program in slow_sums.PROGRAMS:
            blocks.assemble(given.rvstm, place, program)
        tables.print_head(COLUMNS)
        for row in (row for frame in asked for row in rows_of(given.rvstm, place, frame, given.rounds)):
            tables.print_row(row.cells())
            rows.append(row)
    print(f"\n{sum(row.is_within for row in rows)} of {len(rows)} rows are within both bounds: {BOUNDS}")
    return 0


COMMAND = Command(
    "Times frames whose reads pass many sums, with `rvstm chain` in order and with 2 to 32 workers, and says which are within two bounds.",
    "crates/rvstm/out/rvstm --only small --rounds 3",
    run,
    (
        argument("rvstm", metavar="RVSTM", type=finding.absolute, nargs="?", default=texts.TOP / finding.BUILT,
                 help=f"the program, {finding.BUILT} if left out"),
        argument("--rounds", type=count, default=ROUNDS, metavar="N", help=f"runs of each row, {ROUNDS} if left out"),
        argument("--only", action="append", choices=[frame.name for frame in FRAMES], metavar="NAME",
                 help="this frame, and others if it is given again; --names prints them"),
        argument("--names", action="store_true", help="prints what each frame is, and runs nothing"),
    ),
    details=f"""
In each round a frame is run in order and with each number of workers, in turn, in a process of its own. Times are those of the whole
process: medians of --rounds rounds. Memory is the most of all rounds; less than this script has is seen only in processes that last 20 ms.
If an answer differs from that in order, the command fails. The bounds of the last line are
{BOUNDS}.
""",
)
