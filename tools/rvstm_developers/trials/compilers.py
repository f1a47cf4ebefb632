import argparse
import random

from rvstm_developers import options, running, texts
from rvstm_developers.drawing import blocks
from rvstm_tools.errors import Status
from rvstm_tools.options import SEED, Command, argument, count
from rvstm_tools.programs import finding

BLOCKS_A_PROGRAM = 20


def run(given: argparse.Namespace) -> int:
    choice, contracts = random.Random(given.seed), blocks.contracts_of(given.folder)
    made, refused, differing = contracts, 0, 0
    with texts.new_folder() as place:
        block = place / "random.block"
        for number in range(given.blocks):
            if number % BLOCKS_A_PROGRAM == 0:
                made = blocks.made_programs(given.rvstm, place, choice)
            block.write_text(blocks.block_of(choice, choice.choice((contracts, made))), encoding="utf-8")
            one, other = (running.run([program, "seq", block], given.folder) for program in (given.rvstm, given.other))
            refused += one.status != Status.DONE
            if one != other:
                differing += 1
                kept = texts.kept_folder("compilers-", place.iterdir())
                print(f"differs: {kept / block.name}", flush=True)
    print(f"{given.blocks} blocks, {refused} refused, {differing} differ")
    return Status.FAILED if differing else Status.DONE


COMMAND = Command(
    "Compares `rvstm seq` as two compilers built it, over random blocks.",
    "crates/rvstm/out/rvstm crates/rvstm/out/rvstm.by-rattle tests/cases",
    run,
    (
        options.RVSTM,
        argument("other", metavar="OTHER", type=finding.absolute, help="the same program, as another compiler built it"),
        options.FOLDER,
        argument("blocks", metavar="BLOCKS", type=count, nargs="?", default=10_000, help="how many blocks (10,000)"),
        SEED,
    ),
)
