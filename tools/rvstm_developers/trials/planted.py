import argparse
import re
import subprocess
import time
from pathlib import Path
from typing import NamedTuple

from rvstm_developers import texts
from rvstm_developers.running import output_of
from rvstm_tools import options
from rvstm_tools.errors import Status
from rvstm_tools.options import Command, argument
from rvstm_tools.programs import checkouts, finding

BUGS = (
    "a sum is not checked", "the fee is not in the check", "another account's flag is read", "an update is lost",
    "the whole balance is refused", "a number is cut to 32 bits", "a flag stays", "77 is not added",
    "the fifth deposit is not added", "the pot misses the last fee",
)
"""In the order of their numbers in bank.c, from 1 on."""


class FoundBug(NamedTuple):
    """How a bug was found: after how many seconds and calls, and how many calls are left after how many seconds."""

    seconds: float
    calls: str
    left: str
    whole: float

    def __str__(self) -> str:
        return f"{self.seconds:6.1f} s  {self.calls:>9} calls  {self.left:>2} left  {self.whole:6.1f} s"


def explored(words: list[str | Path]) -> FoundBug | None:
    """What a run of `rvstm-tools explore` finds, by its lines and when they come; None if nothing is broken."""
    begun, seconds, calls, found = time.monotonic(), 0.0, "", None
    with subprocess.Popen(words, stdout=subprocess.PIPE, encoding="utf-8") as process:
        assert process.stdout
        for line in process.stdout:
            if form := re.match("broken by call ([0-9]+) of all", line):
                seconds, calls = time.monotonic() - begun, form[1]
            if form := re.match("of [0-9]+ calls ([0-9]+) are left", line):
                found = FoundBug(seconds, calls, form[1], time.monotonic() - begun)
    return found


def run(given: argparse.Namespace) -> int:
    program, top = finding.chosen(options.program_choice(given), "planted"), checkouts.here("planted").top
    folder, failed = top / "tests/fixtures/explored", 0
    with texts.new_folder() as place:
        bank = place / "bank.c"
        bank.write_bytes((folder / "bank.c").read_bytes())
        for number, bug in enumerate(BUGS, 1):
            output_of(["make", "-s", "-f", top / "sdk/Makefile", "bank.elf", f"MORE=-DBUG={number}"], bank.parent)
            words: list[str | Path] = [top / "tools/rvstm-tools", "explore", folder / "bank.explore", "--program", program.path]
            words += ["--seconds", f"{given.seconds}", "--seed", f"{given.seed}", "--replace", f"bank={place}/bank.elf"]
            found = explored(words)
            failed += found is None
            print(f"{number:>2}  {bug:32}{found or 'not found'}", flush=True)
    return Status.FAILED if failed else Status.DONE


COMMAND = Command(
    "Prints how soon `rvstm-tools explore` finds each of ten bugs, and how many calls are left.",
    "--seed 2",
    run,
    (
        options.add_program,
        options.SEED,
        argument("--seconds", type=options.positive, default=60.0, metavar="N", help="for each search, and for shortening; 60 without it"),
    ),
)
