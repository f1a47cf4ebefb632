import argparse
from collections.abc import Sequence
from dataclasses import replace
from pathlib import Path

from rvstm_developers import options, running, texts
from rvstm_developers.bench import blocks, instructions, processes, tables
from rvstm_developers.bench.blocks import FOLDER
from rvstm_developers.running import Word
from rvstm_developers.texts import TOP
from rvstm_tools.errors import UserError
from rvstm_tools.options import Command
from rvstm_tools.programs.checkouts import Checkout
from rvstm_tools.programs.pipes import Pipes
from rvstm_tools.releases.products import Product, Products
from rvstm_tools.sessions import frames

BLOCK, FRAME = b"block\n", b"frame\n"
COLUMNS = ("1,000 transfers", "microseconds a call", "instructions", "microseconds over `rvstm_frame`", "instructions")
ROUNDS, RUNS_A_ROUND = 15, 10
FEW, MANY = 2, 6
"""Runs under callgrind: the difference is what some of them take."""


def built(place: Path) -> list[Word]:
    """The command of bench/embedding.c over 1,000 transfers."""
    archive = Products(Checkout(TOP)).path(Product.ARCHIVE)
    if not archive.is_file():
        raise UserError(f"there is no {archive}: `rvstm-tools library` makes it")
    flags = ["-O2", "-Wall", "-Wextra", "-Werror", f"-I{TOP}/include", f"-I{TOP}/examples/state"]
    running.output_of(["cc", *flags, "-o", place / "embedding", FOLDER / "embedding.c", archive])
    whole = blocks.transfers()
    parts = {"start": replace(whole, calls=[]), "calls": replace(whole, store={})}
    for name, block in parts.items():
        (place / f"{name}.block").write_text(block.text(), encoding="utf-8")
        (place / name).write_bytes(frames.named(block.text().encode(), place).frame().body)
    (place / "whole.block").write_text(whole.text(), encoding="utf-8")
    return [place / "embedding", "transfer.elf", "start", "calls"]


def microseconds(driven: Pipes, way: bytes) -> float:
    """The processor time of a call, in some blocks."""
    driven.give(way * RUNS_A_ROUND)
    return sum(map(int, driven.lines(RUNS_A_ROUND))) / 1_000 / RUNS_A_ROUND / blocks.CALLS


def times(rvstm: Path, place: Path, words: Sequence[Word]) -> list[list[float]]:
    """Microseconds a call in each round: by the calls for blocks, by rvstm_frame, and by `seq` without its start."""
    rounds = []
    with Pipes(words, folder=place) as driven:
        for _ in range(ROUNDS):
            runs = [processes.timed([rvstm, "seq", f"{name}.block"], place) for name in ("whole", "start")]
            whole, start = (processes.sound(spent).processor for spent in runs)
            in_order = 1e6 * (whole - start) / blocks.CALLS
            rounds.append([*(microseconds(driven, way) for way in (BLOCK, FRAME)), in_order])
        ended = driven.end()
    if ended.status:
        raise UserError(f"embedding ended with status {ended.status}: {ended.said()}")
    return [list(column) for column in zip(*rounds)]


def counted(place: Path, words: Sequence[Word], way: bytes) -> float:
    few, many = (instructions.counted(words, place, place, way * count) for count in (FEW, MANY))
    return (many - few) / (MANY - FEW) / blocks.CALLS


def run(given: argparse.Namespace) -> int:
    with texts.new_folder() as place:
        blocks.assemble(given.rvstm, place, "transfer")
        words = built(place)
        spent = times(given.rvstm, place, words)
        seq = [instructions.counted([given.rvstm, "seq", f"{name}.block"], place, place) for name in ("whole", "start")]
        costs = [*(counted(place, words, way) for way in (BLOCK, FRAME)), (seq[0] - seq[1]) / blocks.CALLS]
    tables.print_head(COLUMNS)
    for name, own, cost in zip(("blocks over a hash table", "`rvstm_frame`", "`seq`"), spent, costs):
        ratios = [f"{tables.ratio(own, spent[1]):.2f}", f"{cost / costs[1]:.2f}"]
        tables.print_row([name, tables.middle(own, ".2f"), f"{cost:,.0f}", *ratios])
    return 0


COMMAND = Command(
    "Times a block of 1,000 transfers over the caller's own storage, beside rvstm_frame and `rvstm seq`.",
    "crates/rvstm/out/rvstm",
    run,
    (options.RVSTM,),
)
