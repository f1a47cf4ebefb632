"""Sessions of the library for C, call by call: what each returns, and what the session then says of its last request. The values are
worked out from docs/formats.md, whose example has the program's name, the frame of three counts, its answer and its digest."""

import ctypes
import tomllib
from collections.abc import Sequence
from dataclasses import dataclass
from functools import partial
from pathlib import Path
from string import Template
from typing import Any

from embed import Handle, Parts, Settings

from gate.runner import TOP, Case, Run, same
from rvstm_developers.embedded_library import LibraryStatus

COUNTER = (TOP / "examples/counter/counter.elf").read_bytes()
"""It counts up the key that is its input."""
DATA = tomllib.loads(Path(__file__).with_suffix(".toml").read_text(encoding="utf-8"))
TEXTS: dict[str, str] = {}
for text_name, text in DATA["texts"].items():
    TEXTS[text_name] = Template(text).substitute(TEXTS)
BLOCKS = 100
"""Of one count each, in one session."""
DONE, REFUSED, CLOSED = LibraryStatus.DONE, LibraryStatus.REFUSED, LibraryStatus.CLOSED
END_OF_PARTS = 44
"""After it the structure has four bytes of padding."""


@dataclass(frozen=True)
class RefusedCall:
    area: bytes
    number: int
    name: bytes
    line: int = 0


Given = bytes | int | Settings
Row = tuple[str, Sequence[Given], LibraryStatus, bytes | RefusedCall | None]
"""The end of a call's name, what it is given, its status, and the answer then; None without a session."""


def given_of(value: Any) -> Given:
    """What a call is given, by its value in the table: the program, a text, a number, or settings."""
    if value == "$COUNTER":
        return COUNTER
    if isinstance(value, str):
        return Template(value).substitute(TEXTS).encode()
    return Settings(*value) if isinstance(value, list) else int(value)


def answer_of(value: Any) -> bytes | RefusedCall:
    if isinstance(value, str):
        return Template(value).substitute(TEXTS).encode()
    area, number, name, *line = value
    return RefusedCall(area.encode(), number, name.encode(), *line)


def rows_of(data: Sequence[Any]) -> list[Row]:
    """Rows of the table, of which each has no answer or one."""
    return [
        (name, [*map(given_of, given)], LibraryStatus[status], answer_of(answer[0]) if answer else None)
        for name, given, status, *answer in data
    ]


def a_hundred_blocks() -> list[Row]:
    """A session whose blocks count one key up."""
    count, counted = TEXTS["COUNT"], TEXTS["COUNTED"]
    data: list[Any] = [["open", [], "DONE", ""], ["program", ["$COUNTER"], "DONE", "$NAME\n"]]
    for number in range(1, BLOCKS + 1):
        answer = counted.replace(" 00000001", f" {number:08x}").replace(" 01000000", f" {number:02x}000000")
        data.append(["frame", [count], "DONE", answer])
    data.append(["get", ["$KEY"], "DONE", "value 64000000\n"])
    return rows_of([*data, ["state", [], "DONE", TEXTS["STATE_OF_100"]], ["close", [], "DONE"]])


class LibrarySession:
    def __init__(self, library: Path) -> None:
        self.library, self.handle = ctypes.CDLL(str(library)), Handle()
        self.library.rvstm_answer_length.restype = ctypes.c_size_t

    def call(self, name: str, *words: object) -> LibraryStatus:
        return LibraryStatus(self.library["rvstm_" + name](ctypes.byref(self.handle), *words))

    def ask(self, name: str, given: Sequence[Given]) -> LibraryStatus:
        """The same, of a call that is given settings, numbers, and bytes with their length."""
        words: list[object] = []
        for value in given:
            if isinstance(value, bytes):
                words += [value, ctypes.c_size_t(len(value))]
            else:
                words.append(ctypes.c_uint64(value) if isinstance(value, int) else ctypes.byref(value))
        return self.call(name, *words)

    def copied(self, length: int) -> tuple[LibraryStatus, bytes]:
        """What copying the answer into so many bytes returns, and what they and the byte after them then hold."""
        buffer = ctypes.create_string_buffer(b"\xee" * (length + 1), length + 1)
        return self.call("answer", buffer, ctypes.c_size_t(length)), buffer.raw

    def check(self, wanted: bytes | RefusedCall | None, what: str) -> None:
        """The session has this answer, copies it whole or not at all, and says why the last request was refused."""
        text = wanted if isinstance(wanted, bytes) else b""
        same(self.library.rvstm_answer_length(ctypes.byref(self.handle)), len(text), what)
        same(self.copied(len(text)), (CLOSED if wanted is None else DONE, text + b"\xee"), what)
        if text:
            same(self.copied(len(text) - 1), (LibraryStatus.SHORT_BUFFER, b"\xee" * len(text)), what)
        parts, refused = Parts(9, 9, b"9" * 8, b"9" * 24), wanted if isinstance(wanted, RefusedCall) else RefusedCall(b"", 0, b"")
        status = self.call("refusal", ctypes.byref(parts))
        same(status, CLOSED if wanted is None else REFUSED if isinstance(wanted, RefusedCall) else DONE, what)
        same(bytes(parts)[:END_OF_PARTS], bytes(Parts(refused.line, refused.number, refused.area, refused.name))[:END_OF_PARTS], what)


def answers(run: Run, rows: Sequence[Row]) -> None:
    """Each call of a session is answered as its row says."""
    assert run.setting.library
    session = LibrarySession(run.setting.library / "librvstm.so")
    for number, (name, given, status, answer) in enumerate(rows):
        what = f"call {number}, {name}"
        same(session.ask(name, given), status, what)
        session.check(answer, what)


def cases() -> list[Case]:
    sessions = {name: rows_of(data) for name, data in DATA["sessions"].items()} | {"a hundred blocks": a_hundred_blocks()}
    return [Case(f"library: {name}", partial(answers, rows=rows), needs_library=True) for name, rows in sessions.items()]
