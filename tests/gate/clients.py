"""A client of `rvstm chain`: requests and answers as bytes, and frames made of block files (docs/formats.md)."""

from collections.abc import Sequence
from pathlib import Path

from gate.calls import Word
from gate.runner import Differs, shown
from rvstm_tools.programs.pipes import Pipes
from rvstm_tools.sessions import frames

NO_DIGEST = b"0" * 64


def asks(word: str, body: bytes | None = None, *fields: str) -> bytes:
    """The bytes of a request; its body, if it has one, with its length in the line."""
    words = [word, *fields] + ([] if body is None else [str(len(body))])
    return " ".join(words).encode() + b"\n" + (body or b"")


def done(body: bytes = b"") -> bytes:
    return b"ok %d\n" % len(body) + body


def refused(what: str) -> bytes:
    return f"refused {what}\n".encode()


def name_of(program: bytes) -> bytes:
    return frames.name_of(program).encode()


def frame_of(path: Path) -> tuple[list[bytes], bytes]:
    """The programs of a block file, and its text with their names."""
    named = frames.named(path.read_bytes(), path.parent)
    return list(named.files.values()), named.block


class ClientSession(Pipes):
    def __init__(self, program: Path, *words: Word, before: Sequence[Word] = ()) -> None:
        super().__init__([*before, program, "chain", *words])

    def ask(self, request: bytes) -> bytes:
        self.give(request)
        line = self.output.readline()
        size = int(line.split()[1]) if line.startswith(b"ok ") else 0
        body = self.output.read(size)
        if not line.endswith(b"\n") or len(body) < size:
            ended = self.end()
            raise Differs(f"{shown(request)}: came {shown(line)}, {shown(ended.said())}, status {ended.status}; wanted an answer")
        return line + body

    def expect(self, request: bytes, answer: bytes) -> None:
        """The case ends if a request has another answer."""
        came = self.ask(request)
        if came != answer:
            raise Differs(f"{shown(request)}: came {shown(came)}; wanted {shown(answer)}")

    def ended(self, data: bytes = b"q\n") -> tuple[bytes, str, int]:
        """Gives the last bytes of the input. Returns what is written after them, standard error, and the status."""
        out, errors, status = self.end(data)
        return out, errors.decode(errors="backslashreplace"), status
