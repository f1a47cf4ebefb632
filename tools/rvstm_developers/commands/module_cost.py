import argparse
from collections import defaultdict
from pathlib import Path
from typing import NamedTuple

from rvstm_developers.texts import TOP
from rvstm_tools.errors import UserError
from rvstm_tools.options import Command, argument

KINDS_SHOWN = 8


class CheckedModule(NamedTuple):
    time: float
    name: str

    def kind(self) -> str:
        part = self.name.rpartition(".")[2]
        if "-proofs." not in self.name:
            return "contracts and definitions"
        return part if part[:1].isupper() else "other"


class Cost(NamedTuple):
    seconds: float
    module: CheckedModule


def modules(folder: Path) -> list[CheckedModule]:
    files = (path for path in folder.rglob("*.oantt") if path.parent.name != "records")
    return sorted(CheckedModule(path.stat().st_mtime, path.stem) for path in files)


def run(given: argparse.Namespace) -> int:
    found = modules(TOP / "crates" / given.crate / "out/incremental")
    if not found:
        raise UserError(f"{given.crate}: no check has kept anything")
    costs = [Cost(after.time - before.time, after) for before, after in zip(found, found[1:])]
    kinds: defaultdict[str, float] = defaultdict(float)
    for cost in costs:
        kinds[cost.module.kind()] += cost.seconds
    print(f"{sum(kinds.values()):.0f} s, {len(found)} modules")
    for name, seconds in sorted(kinds.items(), key=lambda item: -item[1])[:KINDS_SHOWN]:
        print(f"{seconds:8.1f} {name}")
    print()
    for cost in sorted(costs, reverse=True)[: given.most]:
        print(f"{cost.seconds:8.1f} {cost.module.name}")
    return 0


COMMAND = Command(
    "Prints what each module of a crate costs its check, in seconds, by the times of the files that the check kept.",
    "stm_core",
    run,
    (
        argument("crate", metavar="CRATE", help="the name of the crate"),
        argument("most", metavar="MOST", type=int, nargs="?", default=30, help="how many modules are printed (30)"),
    ),
)
