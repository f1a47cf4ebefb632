#!/usr/bin/env python3
"""A session in a Python program: runs a block of examples/token, and compares with `rvstm seq`; is refused another one; and reads a
key and the session's counts.

usage: embed.py LIBRARY RVSTM

LIBRARY is librvstm.so as rvstm-tools library makes it, and RVSTM the built program. Started in examples/token. embed.expect has what it
prints.
"""

import ctypes
import re
import subprocess
import sys
from pathlib import Path

DONE, REFUSED, FAILED = 0, 1, 4
NO_LIMIT = 2**64 - 1
PROGRAM = re.compile(rb"^(program \d+) (\S+)$", re.M)


class Handle(ctypes.Structure):
    """An rvstm_session. ctypes makes all its bytes zero."""

    _fields_ = [("at", ctypes.c_void_p), ("full", ctypes.c_bool)]


class Settings(ctypes.Structure):
    """An rvstm_settings."""

    _fields_ = [("frame_limit", ctypes.c_uint64), ("frame_gas", ctypes.c_uint64), ("digest", ctypes.c_bool), ("brief", ctypes.c_bool)]


class Parts(ctypes.Structure):
    """An rvstm_refusal_parts."""

    _fields_ = [("line", ctypes.c_size_t), ("number", ctypes.c_uint32), ("area", ctypes.c_char * 8), ("name", ctypes.c_char * 24)]


class Session:
    """A session of the library. Its answers are bytes; a refusal is a ValueError, and want of memory a MemoryError."""

    def __init__(
        self, library: str, frame_limit: int = 64 << 20, frame_gas: int = NO_LIMIT, digest: bool = False, brief: bool = False
    ) -> None:
        self.library, self.handle = ctypes.CDLL(library), Handle()
        self.library.rvstm_answer_length.restype = ctypes.c_size_t
        settings = Settings(frame_limit, frame_gas, digest, brief)
        status = self.library.rvstm_open_with(ctypes.byref(self.handle), ctypes.byref(settings))
        if status != DONE:
            raise ValueError(f"rvstm_open_with answers {status}")

    def __enter__(self) -> "Session":
        return self

    def __exit__(self, *_: object) -> None:
        self.library.rvstm_close(ctypes.byref(self.handle))

    def ask(self, name: str, *given: bytes | int) -> bytes:
        """Makes a call that is given bytes and numbers, and returns its answer."""
        words: list[object] = []
        for value in given:
            words += [ctypes.c_uint64(value)] if isinstance(value, int) else [value, ctypes.c_size_t(len(value))]
        status = self.library[name](ctypes.byref(self.handle), *words)
        if status in (REFUSED, FAILED):
            raise (MemoryError if status == FAILED else ValueError)(self.reason())
        if status != DONE:
            raise ValueError(f"{name} answers {status}")
        return self.answer()

    def reason(self) -> str:
        parts = Parts()
        self.library.rvstm_refusal(ctypes.byref(self.handle), ctypes.byref(parts))
        line = f", line {parts.line}" if parts.line else ""
        return f"{parts.area.decode()} {parts.name.decode()} {parts.number}{line}"

    def answer(self) -> bytes:
        length = self.library.rvstm_answer_length(ctypes.byref(self.handle))
        buffer = ctypes.create_string_buffer(length + 1)
        self.library.rvstm_answer(ctypes.byref(self.handle), buffer, ctypes.c_size_t(length))
        return bytes(buffer.raw[:length])


def named(session: Session, block: bytes) -> bytes:
    """A block file whose programs are handed in, with their names in the place of their paths."""
    def name_of(program: re.Match[bytes]) -> bytes:
        name = session.ask("rvstm_program", Path(program[2].decode()).read_bytes())
        return program[1] + b" " + name.strip()

    return PROGRAM.sub(name_of, block)


def compare(rvstm: str, frame: bytes, dump: bytes) -> None:
    """Compares a frame's answer and the storage with what `rvstm seq` prints."""
    in_order = subprocess.run([rvstm, "seq", "token.block"], capture_output=True, check=True).stdout
    # The result of `seq` has the storage before its line `end`; a dump has two lines before it.
    store = dump.split(b"\n", 2)[2]
    if frame.removesuffix(b"end\n") + store + b"end\n" != in_order:
        sys.exit("the session and seq differ")
    print(f"{len(in_order)} bytes, as seq")


def main() -> None:
    if len(sys.argv) != 3:
        sys.exit(__doc__)
    library, rvstm = sys.argv[1:]
    with Session(library) as session:
        block = Path("token.block").read_bytes()
        frame = session.ask("rvstm_frame", named(session, block))
        compare(rvstm, frame, session.ask("rvstm_dump"))
        try:
            session.ask("rvstm_frame", block)  # it has a path, and no name, and a session opens no file
        except ValueError as refusal:
            print(f"refused {refusal}")
        print((session.ask("rvstm_get", b"61636374616c6963650000000000000000000000000000000000000000000014") + session.ask("rvstm_state")).decode(), end="")


if __name__ == "__main__":
    main()
