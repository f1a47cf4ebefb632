"""Texts and bytes that many commands make: block files in each format, numbers, and folders that stay."""

import os
import shutil
import tempfile
from collections.abc import Iterable, Iterator
from contextlib import contextmanager
from pathlib import Path

from rvstm_tools.texts import blocks
from rvstm_tools.texts.blocks import CallLine, Rules
from rvstm_tools.texts.keys import Storage

TOP = Path(__file__).resolve().parents[2]  # the checkout

HEADS = (Rules.ONE.head, "rvblock 2\ngas 1\n", Rules.TWO.head, Rules.THREE.head)
"""What a block file may begin with: rules one in the first format, and rules one to three in the second."""

LONGEST_VALUES = dict(zip(HEADS, (64, 64, 256, 256)))


def head_of(rules: int) -> str:
    """What a block file of these rules begins with, in the first format that has them."""
    return Rules(rules).head


def block_text(paths: Iterable[object], storage: Storage | None = None, calls: Iterable[CallLine] = (), head: str = HEADS[0]) -> str:
    return head + blocks.text(map(str, paths), storage, calls).removeprefix(HEADS[0])


def word(number: int, size: int = 4) -> bytes:
    """A number in `size` bytes, the lowest first."""
    return number.to_bytes(size, "little")


def lines_of(items: Iterable[object]) -> str:
    return "".join(f"{item}\n" for item in items)


@contextmanager
def new_folder(prefix: str | None = None, *, is_in_memory: bool = False) -> Iterator[Path]:
    """A folder that is removed at the end, in memory if that is asked for and there is such a place."""
    memory = "/dev/shm" if is_in_memory and os.access("/dev/shm", os.W_OK) else None
    with tempfile.TemporaryDirectory(prefix=prefix, dir=memory) as place:
        yield Path(place)


def kept_folder(prefix: str, files: Iterable[str | Path] = ()) -> Path:
    """A new folder that stays, with copies of some files, for a run that differs."""
    folder = Path(tempfile.mkdtemp(prefix=prefix))
    for file in files:
        shutil.copy(file, folder)
    return folder
