"""Random blocks of calls that meet: of contracts of a folder, or of random programs, on few keys."""

from collections.abc import Iterator, Sequence
from pathlib import Path
from random import Random

from rvstm_developers import texts
from rvstm_developers.drawing import programs
from rvstm_tools.errors import UserError
from rvstm_tools.texts.blocks import CallLine
from rvstm_tools.texts.keys import Key, key_of

PROGRAMS_A_BLOCK = 4
KEYS = [key_of(bytes([number]), "") for number in range(4)]


def contracts_of(folder: Path) -> list[str]:
    paths = sorted(f"contracts/{path.name}" for path in folder.glob("contracts/*.elf"))
    if not paths:
        raise UserError(f"{folder}/contracts: no file there ends with .elf")
    return paths


def made_programs(rvstm: Path, place: Path, choice: Random) -> list[str]:
    return [str(programs.make(rvstm, choice, place / f"{number}.elf")) for number in range(PROGRAMS_A_BLOCK)]


def input_of(choice: Random) -> bytes:
    """A few random bytes, a key, several keys, or keys and more."""
    kind = choice.randrange(5)
    if kind == 0:
        return bytes(choice.randrange(256) for _ in range(choice.randrange(9)))
    if kind == 1:
        return choice.choice(KEYS)
    if kind == 2:
        return choice.choice(KEYS) + choice.choice(KEYS)
    if kind == 3:
        return programs.input_of(choice, KEYS)
    return bytes([choice.randrange(4)]) + choice.choice(KEYS) + choice.choice(KEYS) + texts.word(choice.randrange(9), 8)


def block_of(choice: Random, paths: Sequence[str]) -> str:
    used = choice.sample(paths, choice.randrange(1, min(4, len(paths)) + 1))
    head = choice.choice(texts.HEADS)
    store: dict[Key, bytes] = {}
    for key in sorted(choice.sample(KEYS, choice.randrange(len(KEYS) + 1))):
        store[key] = bytes(choice.randrange(256) for _ in range(choice.choice((0, 4, 8, texts.LONGEST_VALUES[head]))))
    calls = []
    for _ in range(choice.choice((1, 2, 5, 20, 60))):
        gas = choice.choice((1, 400, 1_000, 20_000, 200_000))
        calls.append(CallLine(choice.randrange(len(used)), gas, input_of(choice)))
    return texts.block_text(used, store, calls, head)


def blocks_of(choice: Random, paths: Sequence[str]) -> Iterator[bytes]:
    while True:
        yield block_of(choice, paths).encode()
