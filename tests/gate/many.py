"""Blocks whose texts are made by a rule: many calls of one key, and calls that share a page. Each by all engines."""

import re
from collections.abc import Sequence
from pathlib import Path

from gate.calls import rvstm
from gate.runner import Case, Run, holds, same
from gate.tables import TableBlock, table
from gate.texts import mixed, written
from rvstm_tools.texts import results

KEY = f"{1:064x}"
CALL = f"call 0 1000 {KEY}\n"
RULES_THREE = "rvblock 2\ngas 3\n"
FORTY = 40
COUNTS_GAS, BUMP_GAS, GET_GAS = 639, 314, 224
MIXED = ((2, 540), (8, 1430), (32, 5150))
"""Numbers of workers, each with entries of a mixed list after which the workers were seen done."""
TOUCH = """\
li t0,cell
lw t1,0(t0)
addi t1,t1,1
sw t1,0(t0)
addi a0,t0,0
addi a1,x0,4
addi a7,x0,3
ecall
.data
cell: .word 7
"""
"""Counts up a word of its data, and returns it."""


def registers(**values: int) -> str:
    """The line of registers: x2 is the end of the stack, the others are 0 or what is given, as `x10=1`."""
    given = {"x2": 0x110000, **values}
    return "regs " + " ".join(f"{given.get(f'x{number}', 0):08x}" for number in range(32)) + "\n"


def result_of_counts(calls: int) -> str:
    """What calls print that count one key up: call i ends with x5 = i + 1, and writes that number."""
    text = ""
    for call in range(calls):
        left = registers(x5=call + 1, x8=0x100000, x10=0x100000, x12=4, x17=3)
        text += f"call {call} returned gas {COUNTS_GAS} pc 00010034 out -\n{left}write {call} {KEY} {value(call + 1)}\n"
    return f"{text}store {KEY} {value(calls)}\nend\n"


def value(number: int, size: int = 4) -> str:
    """A number as the bytes of a value."""
    return number.to_bytes(size, "little").hex()


def result_of_bumps() -> str:
    """What forty calls print that add 1 to one key: each call's sum, and 40 at the key."""
    text = ""
    for call in range(FORTY):
        text += f"call {call} returned gas {BUMP_GAS} pc 00010014 out -\n{registers(x10=0x100000, x17=3)}write {call} {KEY} add 1\n"
    return f"{text}store {KEY} {value(FORTY, 8)}\nend\n"


def put(run: Run, head: str, names: Sequence[str], lines: str) -> Path:
    """A folder with a block of programs of the table `programs`."""
    contents = table("programs").contents
    for number, name in enumerate(names):
        (run.place / str(number)).write_bytes(contents[name])
    written(run.place / "block", TableBlock("", names, head, lines).text())
    return run.place


def counts(run: Run) -> None:
    """Forty counts of one key in order, by one worker in 320 steps, and along mixed lists."""
    folder, wanted = put(run, "rvblock 1\n", ["COUNT"], CALL * FORTY), result_of_counts(FORTY)
    same(rvstm(run, "seq", "block", folder=folder).done(), wanted)
    same_along(run, folder, wanted, ((1, 8 * FORTY), *MIXED))


def bumps(run: Run) -> None:
    """Forty bumps of one key in order, by one worker in 240 steps and not in 239, and along mixed lists."""
    folder, wanted = put(run, RULES_THREE, ["BUMP"], CALL * FORTY), result_of_bumps()
    same(rvstm(run, "seq", "block", folder=folder).done(), wanted)
    same_along(run, folder, wanted, ((1, 6 * FORTY), *MIXED))
    words = ("drive", "block", "--workers", "1", "--schedule", "list")
    written(folder / "list", "0\n" * (6 * FORTY - 1))
    rvstm(run, *words, folder=folder).refused("rvstm: drive NotDone 1")
    written(folder / "list", "0\n" * 6 * FORTY)
    counted = rvstm(run, *words, "--counts", folder=folder).errors.splitlines()[0]
    same(counted, "worker 0 steps 240 asks 80 executions 40 validations 40")


def same_along(run: Run, folder: Path, wanted: str, lists: Sequence[tuple[int, int]]) -> None:
    """The case ends if a block prints anything else along mixed lists."""
    for workers, entries in lists:
        written(folder / "list", mixed(workers, entries))
        words = ("drive", "block", "--workers", str(workers), "--schedule", "list")
        same(rvstm(run, *words, folder=folder).done(), wanted, f"{workers} workers")


def bumps_by_threads(run: Run) -> None:
    """No bump reads, so none is run again, whatever the threads do."""
    folder, wanted = put(run, RULES_THREE, ["BUMP"], CALL * FORTY), result_of_bumps()
    for workers in (1, 2, 8, 32):
        done = rvstm(run, "run", "block", "--workers", str(workers), "--counts", folder=folder)
        same(done.done(), wanted, f"{workers} workers")
        counted = done.errors.splitlines()[-1]
        holds(f" executions {FORTY} " in counted and counted.endswith(" repeated 0"), counted, f"executions {FORTY}, repeated 0")


def counts_by_threads(run: Run) -> None:
    """Forty counts of one key, by each number of workers."""
    folder, wanted = put(run, "rvblock 1\n", ["COUNT"], CALL * FORTY), result_of_counts(FORTY)
    for workers in range(1, 33):
        same(rvstm(run, "run", "block", "--workers", str(workers), folder=folder).done(), wanted, f"{workers} workers")


def touches(run: Run) -> None:
    """Calls of one program share its pages, and none sees what another one wrote to its own."""
    written(run.place / "touch.s", TOUCH)
    rvstm(run, "asm", "touch.s", "--out", "0", folder=run.place).done()
    written(run.place / "block", TableBlock("", ["TOUCH"], lines="call 0 1000 -\n" * 8).text())
    text = rvstm(run, "run", "block", "--workers", "4", folder=run.place).done()
    found = [(call.end.value, call.gas, call.pc, call.output.hex()) for call in results.result_of(text).receipts]
    same(found, [("returned", 24, 0x10020, "08000000")] * 8)


def waits_of_forty_calls(run: Run) -> None:
    """Each of forty counts waits for the one before it, so the path is the gas of all. No bump reads, so none waits."""
    folder = put(run, "rvblock 1\n", ["COUNT"], CALL * FORTY)
    text = f"writers {KEY} {' '.join(map(str, range(FORTY)))}\ncall 0 gas {COUNTS_GAS} path {COUNTS_GAS}\n"
    for call in range(1, FORTY):
        text += f"wait {call} {call - 1} {KEY}\ncall {call} gas {COUNTS_GAS} path {(call + 1) * COUNTS_GAS}\n"
    text += f"key {KEY} writers 40 waits 39\nall calls 40 gas 25560 path 25560\n"
    same(rvstm(run, "conflicts", "block", folder=folder).done(), text)
    folder = put(run, RULES_THREE, ["BUMP"], CALL * FORTY)
    text = "".join(f"call {call} gas {BUMP_GAS} path {BUMP_GAS}\n" for call in range(FORTY))
    same(rvstm(run, "conflicts", "block", folder=folder).done(), f"{text}all calls 40 gas 12560 path 314\n")


def waits_of_many_readers(run: Run) -> None:
    """Each of 256 reads after 256 bumps waits for all bumps: 65,536 waits, in a line for each read."""
    folder = put(run, RULES_THREE, ["BUMP", "GET"], CALL * 256 + CALL.replace("call 0", "call 1") * 256)
    text = f"writers {KEY} {' '.join(map(str, range(256)))}\n"
    text += "".join(f"call {call} gas {BUMP_GAS} path {BUMP_GAS}\n" for call in range(256))
    text += "".join(f"wait {call} 0 {KEY}\ncall {call} gas {GET_GAS} path {BUMP_GAS + GET_GAS}\n" for call in range(256, 512))
    text += f"key {KEY} writers 256 waits 65536\nall calls 512 gas 137728 path 538\n"
    same(rvstm(run, "conflicts", "block", folder=folder).done(), text)


def replays(run: Run) -> None:
    """Each of three counts of one key reads what the one before it wrote, and not what the last one wrote. It ends as in `seq`."""
    folder = put(run, "rvblock 1\n", ["COUNT"], f"call 0 1000 {'aa' * 32}\n" * 3)
    ends = re.findall("^regs .*", rvstm(run, "seq", "block", folder=folder).done(), re.M)
    for call in range(3):
        # At the instruction after the READ and the load of what it gave; and at the end, since no instruction is at 0.
        lines = "g 00010014\nr\ng 00000000\nr\n"
        text = rvstm(run, "debug", "block", "--call", str(call), folder=folder, data=lines).done()
        same(text.splitlines()[3:], [ends[call]], "at the end")
        fifth = [int(line.split()[6], 16) for line in re.findall("^regs .*", text, re.M)]
        same(fifth, [call, call + 1], f"x5 in call {call}")


def cases() -> list[Case]:
    """All of them, by the names of the tests that they were."""
    return [
        Case("many: forty_counts, forty_counts_along_mixed_lists", counts),
        Case("many: forty_bumps, forty_bumps_one_worker", bumps),
        Case("many: forty_bumps_by_threads", bumps_by_threads),
        Case("many: forty_counts_by_threads", counts_by_threads, cost=2, needs_speed=True),
        Case("many: eight_touches", touches),
        Case("many: conflicts_of_forty_calls", waits_of_forty_calls),
        Case("many: conflicts_of_256_writers_and_256_readers", waits_of_many_readers),
        Case("many: a_call_is_replayed_over_the_storage_before_it", replays),
    ]
