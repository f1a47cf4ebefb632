"""Requests of a session: what a client asks for, and the bytes that ask for it (docs/formats.md, "Sessions")."""

import enum
from collections.abc import Iterable
from typing import NamedTuple

class Bytes(bytes, enum.Enum):
    """A choice of some bytes. Each equals its bytes, and so has their hash."""

    def __hash__(self) -> int:
        return bytes.__hash__(self)


class Word(Bytes):
    PROGRAM = b"program"
    FRAME = b"frame"
    TRY = b"try"
    BEGIN = b"begin"
    FORGET = b"forget"
    GET = b"get"
    LIST = b"list"
    PROGRAMS = b"programs"
    LAST = b"last"
    DUMP = b"dump"
    STATE = b"state"
    QUIT = b"q"


WITH_BODY = (Word.PROGRAM, Word.FRAME, Word.TRY, Word.BEGIN)  # the words of requests whose line is followed by bytes


class Request(NamedTuple):
    word: bytes  # one of `Word`
    fields: tuple[bytes, ...] = ()
    body: bytes = b""

    def text(self) -> bytes:
        length = (b"%d" % len(self.body),) if self.word in WITH_BODY else ()
        return b" ".join((self.word, *self.fields, *length)) + b"\n" + self.body


def text_of(requests: Iterable[Request]) -> bytes:
    return b"".join(request.text() for request in requests)


def key_field(key: bytes) -> bytes:
    """A key as the line of a request has it."""
    return key.hex().encode()


def begin(height: int, digest: bytes | None, dump: bytes) -> Request:
    """The request that puts a dump in place of the storage. The digest, 32 bytes, is None if none is kept."""
    return Request(Word.BEGIN, (b"%d" % height, b"-" if digest is None else digest.hex().encode()), dump)
