import argparse
import statistics
import subprocess
from collections.abc import Callable, Sequence
from dataclasses import dataclass
from pathlib import Path

from rvstm_developers import texts
from rvstm_developers import options as shared_options
from rvstm_developers.bench import blocks, slow_sessions, tables
from rvstm_developers.bench.processes import Spent, sound, timed
from rvstm_developers.bench.slow_blocks import BLOCKS, CHAIN, CHAIN_4, GAS, SEQ, Content, Share, SlowBlock, endless, used_up, write_block
from rvstm_tools.errors import MisuseError
from rvstm_tools.options import Command, argument

CALLS, ROUNDS, WORK_CALLS = 16, 3, 4
SOURCES = ("work", "reads", "bump", "turns", "sweep", "gather", "add-later", "read-later", "draw", "scatter")
SESSIONS = {
    "one-hash": "read keys drawn at random of 1,048,576, all of which have one hash",
    "new-keys": "add 256 new keys to 1,048,576, and remove them again",
    "new-keys-stored": "the same in a session with a file",
    "list": "no calls: pages of `list` over 1,048,576 keys",
}
UNITS = {Share.GAS: 1e9, Share.CALL: 1e6}


@dataclass(frozen=True)
class Options:
    rvstm: Path
    place: Path
    calls: int
    rounds: int


def words_of(name: str, way: str) -> list[str]:
    """The words of a way, as a shell has them."""
    command, *words = way.split()
    return [command, *words, "<", f"{name}.requests"] if way in (CHAIN, CHAIN_4) else [command, f"{name}.block", *words]


def run_way(options: Options, name: str, way: str) -> Spent:
    words = words_of(name, way)
    if "<" in words:
        return timed([options.rvstm, *words[:-2]], options.place, words[-1])
    return timed([options.rvstm, *words], options.place)


def gas_of(options: Options, name: str) -> int:
    with subprocess.Popen([options.rvstm, "seq", f"{name}.block"], cwd=options.place, stdout=subprocess.PIPE, encoding="utf-8") as process:
        assert process.stdout is not None
        return sum(int(line.split(" ", 5)[4]) for line in process.stdout if line.startswith("call "))


def whole_of(options: Options, block: SlowBlock, content: Content) -> int:
    """What the time of a block is divided by: its calls, or the units of gas that they use."""
    if block.share is Share.CALL:
        return len(content.calls)
    return content.gas or gas_of(options, block.name)


def print_block(options: Options, block: SlowBlock) -> None:
    content = block.make(options.calls)
    write_block(options.place, block.name, content)
    whole = whole_of(options, block, content)
    for way in block.ways:
        runs, ratios = [], []
        for _ in range(options.rounds):
            work = sound(run_way(options, "reference", SEQ)).processor / (WORK_CALLS * GAS)
            runs.append(run_way(options, block.name, way))
            ratios.append(runs[-1].processor / whole / work)
        print_row(" ".join(words_of(block.name, way)), runs, whole, block.share, statistics.median(ratios))


def print_row(command: str, runs: Sequence[Spent], whole: int, share: Share, ratio: float) -> None:
    """Prints a row of the table: medians, and the most memory of all runs."""
    seconds, processor = (statistics.median(times) for times in zip(*((run.seconds, run.processor) for run in runs)))
    each = f"{processor / whole * UNITS[share]:.1f} {share.value}"
    beside = f"{ratio:.2f} times" if share is Share.GAS else f"{ratio:,.0f} gas"
    fault = next((f" ({run.fault})" for run in runs if run.fault), "")
    most = max(run.mebibytes for run in runs)
    memory = f"{most:.0f}" if most else "-"
    tables.print_row([f"`{command}`{fault}", f"{seconds:.2f}", f"{processor:.2f}", memory, each, beside])


def print_sessions(options: Options, names: Sequence[str]) -> None:
    acts: dict[str, Callable[[], list[slow_sessions.SessionRow]]] = {
        "one-hash": lambda: slow_sessions.reads_of_one_hash(options.rvstm, options.place, options.rounds),
        "new-keys": lambda: slow_sessions.keys_that_come(options.rvstm, options.place, options.rounds),
        "new-keys-stored": lambda: slow_sessions.keys_that_come(options.rvstm, options.place, options.rounds, str(options.place / "kept")),
        "list": lambda: slow_sessions.pages_of_a_list(options.rvstm, options.rounds),
    }
    if acts.keys().isdisjoint(names):
        return
    tables.print_head([f"over {slow_sessions.KEYS:,} keys", "processor time", "beside the first"])
    for name, act in acts.items():
        for row in act() if name in names else ():
            tables.print_row([row.what, f"{time_of(row.seconds)} {row.unit}", f"{row.ratio:.2f} times"])


def time_of(seconds: float) -> str:
    return f"{seconds * 1e9:.1f} ns" if seconds < 1e-6 else f"{seconds * 1e6:,.1f} µs"


NOTES = {block.name: block.what for block in BLOCKS} | SESSIONS  # each row, and what it is


def prepare(options: Options) -> None:
    for source in SOURCES:
        blocks.assemble(options.rvstm, options.place, source)
    write_block(options.place, "reference", used_up(["work"], endless(WORK_CALLS)))


def run(given: argparse.Namespace) -> int:
    if given.names:
        print("\n".join(f"{name:12} {what}" for name, what in NOTES.items()))
        return 0
    rows = given.rows or list(NOTES)
    if unknown := [row for row in rows if row not in NOTES]:
        raise MisuseError(f"there is no row {unknown[0]}: {', '.join(NOTES)}")
    calls, rounds = (2, 1) if given.quick else (given.calls, given.rounds)
    with texts.new_folder() as place:
        options = Options(given.rvstm, place, calls, rounds)
        prepare(options)
        asked = [block for block in BLOCKS if block.name in rows]
        if asked:
            tables.print_head(["command", "seconds", "processor seconds", "MiB", "each", "beside `work`"])
        for block in asked:
            print_block(options, block)
        print_sessions(options, rows)
    return 0


COMMAND = Command(
    "Times blocks that take a node longest, and prints seconds, processor seconds and the most memory, in MiB.",
    "crates/rvstm/out/rvstm reads fence --quick",
    run,
    (
        shared_options.RVSTM,
        argument("rows", nargs="*", metavar="ROW", help="these alone; --names prints them"),
        argument("--calls", type=int, default=CALLS, metavar="N", help=f"calls of ten million gas, {CALLS} if left out"),
        argument("--rounds", type=int, default=ROUNDS, metavar="N", help=f"runs of each row, {ROUNDS} if left out"),
        argument("--quick", action="store_true", help="one round of 2 calls"),
        argument("--names", action="store_true", help="prints what each row is, and runs nothing"),
    ),
)
