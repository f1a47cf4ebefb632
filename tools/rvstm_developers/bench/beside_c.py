import argparse
import shutil
import statistics
from collections.abc import Iterator, Mapping, Sequence
from pathlib import Path

from rvstm_developers import options, running, texts
from rvstm_developers.bench import blocks, processes, tables
from rvstm_developers.bench.blocks import FOLDER, SPEED_PROGRAMS, TimedBlock
from rvstm_developers.running import Word
from rvstm_tools.errors import UserError
from rvstm_tools.options import Command, argument
from rvstm_tools.programs import finding

CHOOSING_ROUNDS, ROUNDS, TIMES = 3, 15, 21
NO_TABLES = "-fno-jump-tables"
LOOP = "rv_step::machine::Machine::execute_in_page"
ALIGNMENT = 32
NEW, OLD = "rvstm", "old"
SHORT_COLUMNS = ["short calls, microseconds each", "`seq`", "`drive`, 1 worker", "`run`, 1 worker", "2 workers", "4 workers"]


def builds(place: Path) -> dict[str, Path]:
    made = {}
    for compiler in filter(shutil.which, ("gcc", "clang")):
        for level in ("-O2", "-O3"):
            choices: tuple[tuple[str, ...], ...] = ((), (NO_TABLES,))
            for more in choices:
                name = " ".join([compiler, level, *more])
                made[name] = place / name.replace(" ", "_")
                running.output_of([compiler, level, *more, "-w", "-o", made[name], FOLDER / "plainvm.c"])
    if not made:
        raise UserError("neither gcc nor clang is on the path")
    return made


def all_blocks(rvstm: Path, place: Path) -> Iterator[tuple[str, str]]:
    yield "calls that compute", (FOLDER / "speed.block").read_text(encoding="utf-8")
    for number, program in enumerate(SPEED_PROGRAMS):
        yield program, TimedBlock(program, program, blocks.speed_calls(number)).text(f"programs/{program}.elf")
    for name, count, block in (("200 counts", 200, blocks.hot_key()), ("1,000 transfers", 1000, blocks.transfers())):
        yield name, block.first(count).text(blocks.assemble(rvstm, place, block.source))
    for name, count in (("token", 150), ("tally", 600)):
        yield f"{count} calls of {name}", blocks.calls_again(name, count)


def times_in_turn(commands: Mapping[str, Sequence[Word]], place: Path, rounds: int) -> dict[str, list[float]]:
    """The processor times of some commands in milliseconds, in each of some rounds. All print the same bytes."""
    times: dict[str, list[float]] = {name: [] for name in commands}
    results = {name: str(place / f"{name.replace(' ', '_')}.text") for name in commands}
    for _ in range(rounds):
        for name, words in commands.items():
            spent = processes.sound(processes.timed(words, FOLDER, result=results[name]))
            times[name].append(1000 * spent.processor)
    if len({Path(path).read_bytes() for path in results.values()}) != 1:
        raise UserError("the programs print different texts")
    return times


def fastest_builds(plain: Mapping[str, Path], block: Path, place: Path) -> list[str]:
    times = times_in_turn({name: [path, block] for name, path in plain.items()}, place, CHOOSING_ROUNDS)
    middle = {name: statistics.median(spent) for name, spent in times.items()}
    return [min((name for name in middle if (NO_TABLES in name) == is_without), key=middle.__getitem__) for is_without in (False, True)]


def print_whole(rvstm: Path, old: Path | None, place: Path) -> None:
    plain = builds(place)
    columns = ["block", "`rvstm seq`, ms", "fastest build with jump tables", "its ms", "ratio", "fastest without", "its ms", "ratio"]
    tables.print_head(columns + (["before, ms", "ratio to before"] if old else []))
    for name, text in all_blocks(rvstm, place):
        block = place / "one.block"
        block.write_text(text, encoding="utf-8")
        fastest = fastest_builds(plain, block, place)
        commands: dict[str, Sequence[Word]] = {build: [plain[build], block] for build in fastest}
        commands[NEW] = [rvstm, "seq", block]
        if old:
            commands[OLD] = [old, "seq", block]
        times = times_in_turn(commands, place, ROUNDS)
        cells = [name, tables.middle(times[NEW])]
        for build in fastest:
            cells.append(build.replace(f" {NO_TABLES}", ""))
            cells += [tables.middle(times[build]), f"{tables.ratio(times[build], times[NEW]):.2f}"]
        cells += [tables.middle(times[OLD]), f"{tables.ratio(times[OLD], times[NEW]):.2f}"] if old else []
        tables.print_row(cells)


def best_times(commands: Sequence[Sequence[Word]], place: Path) -> list[float]:
    rounds = [[processes.sound(processes.timed(words, place)).seconds for words in commands] for _ in range(TIMES)]
    return [min(times) for times in zip(*rounds)]


def print_short(rvstm: Path, place: Path) -> None:
    print()
    tables.print_head(SHORT_COLUMNS)
    (place / "list").write_text("0\n" * 20_000, encoding="utf-8")
    for block in (blocks.hot_key(), blocks.transfers()):
        blocks.assemble(rvstm, place, block.source)
        (place / "whole.block").write_text(block.text(), encoding="utf-8")
        (place / "empty.block").write_text(block.empty().text(), encoding="utf-8")
        commands: list[list[Word]] = [[rvstm, "seq", "empty.block"], [rvstm, "seq", "whole.block"]]
        commands.append([rvstm, "drive", "whole.block", "--workers", "1", "--schedule", "list"])
        commands += [[rvstm, "run", "whole.block", "--workers", workers] for workers in ("1", "2", "4")]
        left, *times = best_times(commands, place)
        tables.print_row([block.name, *(f"{(spent - left) / len(block.calls) * 1e6:.1f}" for spent in times)])


def print_place_of_loop(rvstm: Path) -> None:
    if not shutil.which("nm"):
        return
    names = running.output_of(["nm", rvstm]).decode().splitlines()
    address = next((line.split(" ")[0] for line in names if line.endswith(LOOP)), None)
    if address is not None:
        print(f"\nThe loop begins {int(address, 16) % ALIGNMENT} bytes after a multiple of {ALIGNMENT}.")


def run(given: argparse.Namespace) -> int:
    with texts.new_folder() as place:
        print_whole(given.rvstm, given.old, place)
        print_short(given.rvstm, place)
    print_place_of_loop(given.rvstm)
    return 0


COMMAND = Command(
    "Times `rvstm seq` beside a plain interpreter in C, in one run, and prints tables.",
    "crates/rvstm/out/rvstm",
    run,
    (options.RVSTM, argument("old", metavar="OLD", type=finding.absolute, nargs="?", help="an earlier program to compare it with")),
)
