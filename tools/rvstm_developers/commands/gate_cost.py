import argparse
import enum
import os
import subprocess
import time
from collections import defaultdict
from collections.abc import Iterable, Iterator, Mapping
from dataclasses import dataclass
from pathlib import Path
from typing import NamedTuple

from rvstm_developers.texts import TOP
from rvstm_tools.options import Command, argument

TICKS = os.sysconf("SC_CLK_TCK")
INTERVAL = 0.5
PARENT, BEGAN, USER_TIME, SYSTEM_TIME = 1, 19, 11, 12  # fields of /proc/N/stat after the name


class CostKind(enum.Enum):
    PROOF = "proof"
    TESTS = "tests"
    EDITS = "edits"
    OTHER = "other"


class CrateTask(NamedTuple):
    """The crate of a process, which is empty if it is of none, and what it is for."""

    crate: str
    kind: CostKind


OTHER = CrateTask("", CostKind.OTHER)


class Identity(NamedTuple):
    """A process: its number, and when it began, as numbers are given again."""

    number: int
    began: int


@dataclass(frozen=True)
class Process:
    identity: Identity
    parent: int
    seconds: float


def processes() -> Iterator[Process]:
    for path in Path("/proc").iterdir():
        if not path.name.isdigit():
            continue
        try:
            fields = (path / "stat").read_text(encoding="utf-8").rpartition(")")[2].split()
        except OSError:  # it has ended
            continue
        seconds = (int(fields[USER_TIME]) + int(fields[SYSTEM_TIME])) / TICKS
        yield Process(Identity(int(path.name), int(fields[BEGAN])), int(fields[PARENT]), seconds)


def task_of(number: int) -> CrateTask | None:
    """The task of a process of the prover; others are of no crate. None if it has ended. An edit is in a copy."""
    try:
        words = Path(f"/proc/{number}/cmdline").read_bytes().decode(errors="replace").split("\0")
        folder = os.readlink(f"/proc/{number}/cwd")
    except OSError:
        return None
    if os.path.basename(words[0]) != "rattle" or "--crate-name" not in words:
        return OTHER
    crate = words[words.index("--crate-name") + 1]
    if "--test" in words:
        return CrateTask(crate, CostKind.TESTS)
    return CrateTask(crate, CostKind.EDITS if "/rt-edit" in folder else CostKind.PROOF)


def descendants(root: int, found: Iterable[Process]) -> set[int]:
    below: defaultdict[int, list[int]] = defaultdict(list)
    for process in found:
        below[process.parent].append(process.identity.number)
    left, seen = [root], set[int]()
    while left:
        for child in below[left.pop()]:
            if child not in seen:
                seen.add(child)
                left.append(child)
    return seen


def measure(gate: subprocess.Popen[bytes]) -> dict[CrateTask, float]:
    tasks: dict[Identity, CrateTask] = {}
    used: dict[Identity, float] = {}
    while gate.poll() is None:
        found = list(processes())
        ours = descendants(gate.pid, found)
        for process in found:
            identity = process.identity
            if identity.number not in ours:
                continue
            if tasks.get(identity, OTHER).kind is CostKind.OTHER:
                task = task_of(identity.number)
                tasks[identity] = OTHER if task is None else task
            used[identity] = process.seconds
        time.sleep(INTERVAL)
    costs: defaultdict[CrateTask, float] = defaultdict(float)
    for identity, seconds in used.items():
        costs[tasks.get(identity, OTHER)] += seconds
    return costs


def edits_of(crate: str) -> int:
    return len(list((TOP / "crates" / crate / "must-fail").glob("*.edit")))


def print_table(costs: Mapping[CrateTask, float], minutes: float) -> None:
    def cost(crate: str, kind: CostKind) -> float:
        return costs.get(CrateTask(crate, kind), 0)

    crates = sorted({task.crate for task in costs if task.crate}, key=lambda crate: -sum(cost(crate, kind) for kind in CostKind))
    print("| crate | proof | tests | edits | number of edits | in all |")
    print("|---|---|---|---|---|---|")
    for crate in crates:
        row = [round(cost(crate, kind)) for kind in (CostKind.PROOF, CostKind.TESTS, CostKind.EDITS)]
        print(f"| {crate} | {row[0]} | {row[1]} | {row[2]} | {edits_of(crate)} | {sum(row)} |")
    sums = [sum(seconds for task, seconds in costs.items() if task.kind is kind) for kind in CostKind]
    count = sum(edits_of(crate) for crate in crates)
    print(f"| all | {sums[0]:.0f} | {sums[1]:.0f} | {sums[2]:.0f} | {count} | {sum(sums[:3]):.0f} |")
    print(f"\nother: {sums[3]:.0f} s; processor time in all: {sum(sums) / 60:.0f} minutes; wall time: {minutes:.0f} minutes")


def run(given: argparse.Namespace) -> int:
    began = time.time()
    with open(given.log, "w", encoding="utf-8") as log:
        gate = subprocess.Popen(["rt", "ci", *["--anew"] * given.anew, *given.crates], cwd=TOP, stdout=log, stderr=subprocess.STDOUT)
        costs = measure(gate)
    print_table(costs, (time.time() - began) / 60)
    return gate.returncode


COMMAND = Command(
    "Runs `rt ci` and prints what each crate costs it, in seconds of processor time.",
    "/tmp/gate.log gas",
    run,
    (
        argument("log", metavar="LOG", type=Path, help="the file for what the gate prints"),
        argument("crates", metavar="CRATE", nargs="*", help="proves these and those below them; all without it"),
        argument("--anew", action="store_true", help="keeps nothing of earlier runs"),
    ),
)
