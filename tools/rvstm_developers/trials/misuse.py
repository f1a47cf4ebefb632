import argparse
import shutil
import sys

from rvstm_developers import blocks, options, running, texts
from rvstm_developers.blocks import FOLDER
from rvstm_tools.options import Command, argument

SANITIZERS = ("-fsanitize=address,undefined", "-fno-sanitize-recover=all")


def run(given: argparse.Namespace) -> int:
    with texts.new_folder() as place:
        shutil.copy(FOLDER / "script.s", place)
        running.output_of([given.rvstm, "asm", "script.s", "--out", "script.elf"], place)
        sources = [FOLDER / name for name in ("misuse.c", "model.c")]
        misuse = blocks.counted(place, [*blocks.IN_C, *SANITIZERS], sources, "misuse")
        ended = running.run([misuse, "script.elf", str(given.seed), str(given.count)], place)
    sys.stdout.write(ended.output.decode() + ended.errors.decode(errors="backslashreplace"))
    return int(ended.status != 0)


COMMAND = Command(
    "Makes random sequences of the library's calls for blocks over the caller's own storage, right and wrong ones.",
    "crates/rvstm/out/rvstm 100000",
    run,
    (
        options.RVSTM,
        argument("count", metavar="COUNT", type=int, help="how many sequences are made"),
        argument("seed", metavar="SEED", type=int, nargs="?", default=1, help="it fixes the sequences (1)"),
    ),
)
