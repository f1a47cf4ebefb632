"""Sessions of the library for C, by embedded_driver.c: a call's answer is a status, a line as `rvstm chain` has it, and bytes."""

import enum
from collections.abc import Sequence
from dataclasses import dataclass
from pathlib import Path

from rvstm_developers import running
from rvstm_developers.models.sessions import HIGHEST
from rvstm_developers.texts import TOP
from rvstm_tools.errors import UserError
from rvstm_tools.programs.pipes import Pipes
from rvstm_tools.sessions.answers import Kind
from rvstm_tools.sessions.processes import Settings
from rvstm_tools.sessions.requests import Request, Word

DRIVER = Path(__file__).with_name("embedded_driver.c")
MADE = TOP / "crates/rvstm_c/out/embedded"
ARCHIVE, SHARED = MADE / "librvstm.a", MADE / "librvstm.so"
NO_LIMIT = 2**64 - 1
LETTERS = {
    Word.PROGRAM: b"p", Word.FORGET: b"x", Word.PROGRAMS: b"n", Word.FRAME: b"f", Word.TRY: b"t", Word.LAST: b"a", Word.GET: b"g",
    Word.LIST: b"l", Word.DUMP: b"d", Word.BEGIN: b"b", Word.STATE: b"s",
}
OPEN, OPEN_WITH, CLOSE = b"o", b"w", b"c"
BAD_SETTINGS_TEXTS = (b"%d 1 0 0" % (HIGHEST + 1), b"1 %d 0 0" % (HIGHEST + 1), b"%d %d 1 1" % (NO_LIMIT, NO_LIMIT))
SHOWN_OF_ERRORS = 2000
FIELDS_OF_AN_ANSWER = 7


class LibraryStatus(enum.IntEnum):
    """What a call returns, as include/rvstm.h has it."""

    DONE = 0
    REFUSED = 1
    CLOSED = 2
    ALREADY_OPEN = 3
    FAILED = 4
    NO_MEMORY = 5
    SHORT_BUFFER = 6
    BAD_SETTINGS = 7


OF_KINDS = {Kind.OK: LibraryStatus.DONE, Kind.REFUSED: LibraryStatus.REFUSED, Kind.FAILED: LibraryStatus.FAILED}


@dataclass(frozen=True)
class Called:
    """What a call answered. The line is empty if the call is no request."""

    status: LibraryStatus
    line: bytes = b""
    body: bytes = b""


def compile_driver(place: Path, words: Sequence[str] = ()) -> Path:
    driver = place / "driver"
    flags = ["-std=c11", "-Wall", "-Wextra", "-Wpedantic", "-Werror", "-O1", f"-I{TOP}/include"]
    running.output_of(["cc", *flags, *words, "-o", driver, DRIVER, ARCHIVE])
    return driver


def settings_text(settings: Settings) -> bytes:
    gas = NO_LIMIT if settings.frame_gas is None else settings.frame_gas
    return b"%d %d %d %d" % (settings.frame_limit, gas, settings.digest, settings.brief)


class Library(Pipes):
    """The process of the driver, which has some sessions side by side."""

    def call(self, place: int, letter: bytes, number: int = 0, first: bytes = b"", second: bytes = b"") -> Called:
        self.give(b"%d %s %d %d %d\n" % (place, letter, number, len(first), len(second)) + first + second)
        words = self.output.readline().split()
        if len(words) != FIELDS_OF_AN_ANSWER or int(words[0]) != place:
            raise UserError(f"the driver ended: {self.end().said()[-SHOWN_OF_ERRORS:]}")
        status, length = LibraryStatus(int(words[1])), int(words[6])
        return Called(status, line_of(status, words[2:6], length), self.output.read(length))

    def ask(self, place: int, request: Request) -> Called:
        word, fields, body = request
        letter = LETTERS[Word(word)]
        if word == Word.BEGIN:
            return self.call(place, letter, int(fields[0]), fields[1], body)
        if word == Word.LIST:
            return self.call(place, letter, int(fields[1]), fields[0])
        return self.call(place, letter, 0, fields[0] if fields else body)

    def closed(self) -> str:
        ended = self.end()
        if ended.status:
            raise UserError(f"the driver ended with status {ended.status}: {ended.said()[-SHOWN_OF_ERRORS:]}")
        return ended.said()


def line_of(status: LibraryStatus, parts: Sequence[bytes], length: int) -> bytes:
    """The line of an answer that has these parts; empty if the call is no request."""
    line, number, area, name = parts
    if status is LibraryStatus.DONE:
        return b"ok %d\n" % length
    if status in (LibraryStatus.REFUSED, LibraryStatus.FAILED):
        kind = Kind.REFUSED if status is LibraryStatus.REFUSED else Kind.FAILED
        return b" ".join([kind, area, *([line] if line != b"0" else []), name, number]) + b"\n"
    return b""
