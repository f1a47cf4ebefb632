"""Long sources, listings, block files and replays, and what `asm`, `dis`, `migrate` and `debug` print."""

import functools
import math
from typing import NamedTuple

from rvstm_developers import texts
from rvstm_developers.large import blocks
from rvstm_developers.large.blocks import COUNT, LONGEST_PROGRAM, count
from rvstm_developers.large.trial import Make, Trial
from rvstm_developers.machine_code import EXECUTE, READ, WRITE, ElfPart, elf_of
from rvstm_developers.models import machine
from rvstm_developers.models.machine import DATA, TEXT, Instruction, MachineBlock, MachineCall
from rvstm_tools.texts.keys import numbered_key as key

TEXT_WORDS, DATA_BYTES = 16_384, 61_440  # of a source at most
ROUNDS, FEW_ROUNDS = 500_000, 100_000  # of a loop of two steps
LISTED = {
    0x002081B3: "add x3,x1,x2", 0xFFB00093: "addi x1,x0,-5", 0x00309093: "slli x1,x1,3", 0xFFC12083: "lw x1,-4(x2)",
    0xFE20AE23: "sw x2,-4(x1)", 0x000280E7: "jalr x1,0(x5)", 0xFE208EE3: "beq x1,x2,-4", 0x001000EF: "jal x1,2048",
    0x123450B7: "lui x1,0x12345", 0x00000037: "lui x0,0x0", 0x00000073: "ecall", 0x00100073: "ebreak", 0x0FF0000F: "fence",
    0x00000000: ".word 0x00000000", 0xFFFFFFFF: ".word 0xffffffff", 0x0000000F: ".word 0x0000000f",
}
"""Words and their texts."""


def migrated(keys: int) -> Trial:
    block = blocks.of_file_keys(keys=keys).text(["missing"])
    wanted = b"rvblock 2\ngas 1\n" + block.removeprefix(b"rvblock 1\n")
    return Trial(["migrate", "block", "--out", "made"], wanted, files={"block": block}, file="made")


def assembled() -> Trial:
    """A source of two megabytes: the most instructions, each with a label and a remark, and the most bytes of data."""
    loop = [line for number in range(TEXT_WORDS // 2) for line in (f"L{number}:", "addi t0,t0,-1", f"bne t0,zero,L{number}")]
    text = "".join(texts.word(machine.encoded(row)).hex() for row in machine.instructions_of(loop))
    data = blocks.filled(DATA_BYTES, 5)
    lines = [line if line.endswith(":") else f"\t{line}  # {'a remark of some length ' * 2}" for line in loop]
    lines += [".data", *(f"  .byte {byte}   # a byte of data" for byte in data)]
    wanted = elf_of(ElfPart(TEXT, bytes.fromhex(text), READ | EXECUTE), ElfPart(DATA, data, READ | WRITE))
    files = {"source": texts.lines_of(lines).encode()}
    return Trial(["asm", "source", "--out", "made"], wanted, files=files, file="made")


def listed() -> Trial:
    words = [list(LISTED)[number % len(LISTED)] for number in range((LONGEST_PROGRAM - 84) // 4)]
    file = elf_of(ElfPart(TEXT, b"".join(map(texts.word, words)), READ | EXECUTE))
    lines = [f"{TEXT + 4 * place:08x} {word:08x} {LISTED[word]}\n" for place, word in enumerate(words)]
    return Trial(["dis", "0.elf"], "".join(lines).encode(), files={"0.elf": file.ljust(LONGEST_PROGRAM, b"\0")})


def source_trial(source: str, fault: str = "") -> Trial:
    """A source at a limit, or one that is refused for the next one."""
    words, files = ["asm", "source", "--out", "made"], {"source": source.encode()}
    return Trial(words, errors=f"rvstm: asm {fault}\n".encode() if fault else b"", status=int(bool(fault)), files=files)


def source_with_branch(bytes_over: int) -> str:
    return "beq t0,t0,behind\n" + "nop\n" * (bytes_over // 4 - 1) + "behind: ecall\n"


# ---- replays


class DebugLine(NamedTuple):
    """A line that is given to `debug`, and what it answers; None if it answers nothing."""

    line: str
    answer: str | None


def replayed(block: MachineBlock, number: int, rows: list[DebugLine]) -> Trial:
    wanted = texts.lines_of(row.answer for row in rows if row.answer is not None).encode()
    given = texts.lines_of(row.line for row in rows).encode()
    files = {"block": block.text(["0.elf"]), "0.elf": COUNT.file}
    return Trial(["debug", "block", "--call", str(number), "--more"], wanted, input=given, files=files)


def text_of(row: Instruction) -> str:
    name, *numbers = row
    if name in ("lw", "sw"):
        return f"{name} x{numbers[0]},{numbers[1]}(x{numbers[2]})"
    if name in ("addi", "bne"):
        return f"{name} x{numbers[0]},x{numbers[1]},{numbers[2]}"
    return name


def where(call: MachineCall) -> str:
    return f"{call.steps} {call.pc:08x} {text_of(call.program.code[(call.pc - TEXT) // 4])}"


def registers(call: MachineCall) -> str:
    return f"regs {' '.join(f'{value:08x}' for value in call.registers)}"


class Moments:
    def __init__(self, block: MachineBlock, number: int) -> None:
        self.store = MachineBlock(block.programs, block.calls[:number], block.store, block.rules).storage()
        self.call, self.rules = block.calls[number], block.rules
        self.program = block.programs[self.call.program]

    @functools.lru_cache
    def at(self, moment: float = math.inf) -> MachineCall:
        return MachineCall(self.program, self.rules, self.store, self.call.gas, self.call.data).until(moment)


def debugged(rounds: int) -> Trial:
    """A call of so many rounds: to its last moment and back, step by step at both ends and in the middle."""
    block = MachineBlock([COUNT], [count(1), count(1), count(1, rounds), count(1)])
    moments = Moments(block, 2)
    end = moments.at()
    middle, loop = moments.at(rounds + 1), moments.at(2)
    last, memory = end.steps, end.bytes(machine.INPUT, 4096).hex()
    rows = [
        DebugLine("w", where(moments.at(0))), DebugLine(f"t {last}", where(end)), DebugLine("r", registers(end)), DebugLine("s", "refused AtEnd 2"),
        DebugLine(f"v {key(1).hex()}", "value 03000000"), DebugLine("b", where(moments.at(last - 1))), DebugLine("s", where(end)), DebugLine("t 0", where(moments.at(0))),
        DebugLine("b", "refused AtStart 3"), DebugLine(f"t {last + 1}", "refused AtEnd 2"), DebugLine("t 4294967295", "refused AtEnd 2"), DebugLine("t 4294967296", "what"),
        DebugLine(f"t {rounds + 1}", where(middle)), DebugLine("r", registers(middle)), DebugLine("b", where(moments.at(rounds))), DebugLine("t 2", where(loop)),
        DebugLine("r", registers(loop)), DebugLine(f"g {end.pc:08x}", where(moments.at(last - 1))), DebugLine("m 00100000 4096", memory), DebugLine("m 00100000 4097", "what"),
        DebugLine("m 0010f000 4096", end.bytes(0x10F000, 4096).hex()), DebugLine("m 0010f001 4096", "refused BadRange 4"), DebugLine("t 3", where(moments.at(3))),
        DebugLine("e", f"ends returned - {end.limit - end.left} {last}"), DebugLine(f"v {key(1).hex()}", "value 02000000"), DebugLine("q", None),
    ]
    return replayed(block, 2, rows)


def back_to_back(rounds: int) -> Trial:
    """A call of so many rounds, from its last moment back by single steps."""
    block = MachineBlock([COUNT], [count(1, rounds)])
    moments = Moments(block, 0)
    last = moments.at().steps
    rows = [DebugLine(f"t {last}", where(moments.at()))]
    rows += [DebugLine("b", where(moments.at(last - step))) for step in range(1, 9)]
    return replayed(block, 0, rows)


def rows(is_small: bool) -> dict[str, Make]:
    rounds = FEW_ROUNDS if is_small else ROUNDS
    return {
        "migrate of a block file of 2 MB": functools.partial(migrated, 20_000),
        "migrate of a block file of 262,144 keys": functools.partial(migrated, blocks.MANY_KEYS),
        "asm of a source of 2 MB": assembled,
        "a source of 16,385 instructions": lambda: source_trial("ecall\n" * 16_385, "16385 TooLarge 7"),
        "a source of 61,441 bytes of data": lambda: source_trial("ecall\n.data\n.zero 61440\n.byte 1\n", "4 TooLarge 7"),
        "a source with .zero 65537": lambda: source_trial("ecall\n.data\n.zero 65537\n", "3 ImmediateRange 3"),
        "a source with a branch of 4,092 bytes": lambda: source_trial(source_with_branch(4_092)),
        "a source with a branch of 4,096 bytes": lambda: source_trial(source_with_branch(4_096), "1 LabelRange 6"),
        "dis of a program of 131,072 bytes": listed,
        f"debug of a call of {2 * rounds:,} steps": functools.partial(debugged, rounds),
        f"debug of a call of {2 * rounds:,} steps, back from its last moment": functools.partial(back_to_back, rounds),
    }
