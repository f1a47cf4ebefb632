"""Random programs whose storage calls meet on few keys, read what others add, and write by what they read."""

from collections.abc import Sequence
from pathlib import Path
from random import Random

from rvstm_developers import running, texts
from rvstm_tools.texts.keys import Key

KEYS = 3  # how many keys the input of such a program has, 32 bytes each

BUFFER = "addi a1,sp,-256"
AMOUNTS = (0, 1, 7, 2**32 - 1, 2**32, 2**64 - 1)
MOST_ROUNDS = 8_000  # rounds of the loop that a program may begin with, of two instructions each


def storage_call(choice: Random) -> list[str]:
    kind = choice.choice(("add", "add", "add", "read", "read", "write", "remove"))
    if kind == "add":
        amount = choice.choice((*AMOUNTS, choice.randrange(2**64)))
        return [f"li a1,{amount % 2**32:#x}", f"li a2,{amount >> 32:#x}", "addi a7,x0,5", "ecall"]
    if kind == "read":
        return [BUFFER, f"addi a2,x0,{choice.choice((8, 64, 64, 256))}", "addi a7,x0,0", "ecall"]
    if kind == "write":
        return [BUFFER, f"addi a2,x0,{choice.choice((0, 4, 8, 8, 64))}", "addi a7,x0,1", "ecall"]
    return ["addi a7,x0,2", "ecall"]


def source(choice: Random) -> str:
    """A program in assembly: a third of them begin with a loop; then up to eight storage calls, some of them made only if the
    number that was read last is odd; and then a return of eight bytes of it."""
    lines = ["mv s0,a0"]
    if choice.randrange(3) == 0:
        lines += [f"li t0,{choice.randrange(1, MOST_ROUNDS)}", "round:", "addi t0,t0,-1", "bne t0,x0,round"]
    for number in range(choice.randrange(1, 9)):
        is_left_out = choice.randrange(3) == 0
        if is_left_out:
            lines += ["lw t0,-256(sp)", "andi t0,t0,1", f"beq t0,x0,after{number}"]
        lines += [f"addi a0,s0,{32 * choice.randrange(KEYS)}", *storage_call(choice)]
        if is_left_out:
            lines += [f"after{number}:"]
    lines += ["addi a0,sp,-256", "addi a1,x0,8", "addi a7,x0,3", "ecall"]
    return texts.lines_of(lines)


def input_of(choice: Random, keys: Sequence[Key]) -> bytes:
    return b"".join(choice.choice(keys) for _ in range(KEYS))


def make(rvstm: Path, choice: Random, path: Path) -> Path:
    return running.assembled(rvstm, source(choice), path)
