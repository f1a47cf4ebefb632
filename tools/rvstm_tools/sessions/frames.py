"""Frames of a session: block files whose programs are named by their hashes, and what they do to a storage."""

import hashlib
import re
from collections.abc import Iterator
from dataclasses import dataclass
from pathlib import Path

from rvstm_tools.sessions.requests import Request, Word
from rvstm_tools.texts import blocks, results
from rvstm_tools.texts.blocks import Rules
from rvstm_tools.texts.keys import Key, Storage

LINE = re.compile(rb"[^\n]*\n|[^\n]+")
PROGRAM = re.compile(rb"^(program [0-9]+ )([!-~]+)$", re.M)


def lines_of(text: bytes) -> list[bytes]:
    """The lines of a text, each with its LF; the last one may have none."""
    return LINE.findall(text)


def store_lines(storage: Storage) -> bytes:
    return "".join(blocks.store_lines(storage)).encode()


def stored_in(text: bytes) -> Storage:
    """The storage of the `store` lines of a result or of a sound block file."""
    return dict(stored_rows(text))


def stored_rows(text: bytes) -> Iterator[tuple[Key, bytes]]:
    for line in lines_of(text):
        if line.startswith(b"store "):
            _, key, value = line.decode().split()
            yield results.key_of(key), results.bytes_of(value)


def put_over(block: bytes, storage: Storage) -> bytes:
    """A block file whose `store` lines are put over a storage."""
    lines = lines_of(block)
    head = [line for line in lines if not line.startswith((b"store ", b"call "))]
    calls = [line for line in lines if line.startswith(b"call ")]
    return b"".join([*head, store_lines(storage | stored_in(block)), *calls])


def rules_of(block: bytes) -> Rules:
    return Rules(int(lines_of(block)[1].split()[1])) if block.startswith(b"rvblock 2") else Rules.ONE


def receipts_of(result: bytes, *, is_brief: bool = False) -> bytes:
    """The lines of a result that an answer to a frame has."""
    others = (b"store ", b"regs ") if is_brief else (b"store ",)
    return b"".join(line for line in lines_of(result) if not line.startswith(others))


def dump_of(rules: int, storage: Storage) -> bytes:
    """What a session with a storage answers to `dump`."""
    return b"rvblock 2\ngas %d\n" % rules + store_lines(storage)


def name_of(file: bytes) -> str:
    """The name of a program: the SHA-256 of its file."""
    return hashlib.sha256(file).hexdigest()


@dataclass(frozen=True)
class Named:
    """A block file that names its programs in place of their paths, and the files of these by their names."""

    block: bytes
    files: dict[str, bytes]

    def programs(self) -> list[Request]:
        return [Request(Word.PROGRAM, (), file) for file in self.files.values()]

    def frame(self) -> Request:
        return Request(Word.FRAME, (), self.block)


def named(block: bytes, folder: str | Path) -> Named:
    """A block file with names. Its paths are taken from a folder; one where no file is stays as it is."""
    files: dict[str, bytes] = {}

    def name_for(found: re.Match[bytes]) -> bytes:
        path = Path(folder) / found[2].decode()
        if not path.is_file():
            return found[0]
        file = path.read_bytes()
        files[name_of(file)] = file
        return found[1] + name_of(file).encode()

    return Named(PROGRAM.sub(name_for, block), files)
