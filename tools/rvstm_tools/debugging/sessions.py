"""Sessions of `rvstm debug`: a call is replayed, and each line given has one line as its answer."""

import re
from collections.abc import Iterator
from dataclasses import dataclass
from pathlib import Path
from typing import NamedTuple

from rvstm_tools.errors import UserError
from rvstm_tools.programs.pipes import Pipes

LINES_AT_ONCE = 4096  # whose two bytes each fit into a pipe
MOST_BYTES = 4096  # that one line shows
NO_INSTRUCTION = "00000001"  # not a multiple of four, so that the pc is never there
REFUSED = "refused"
PLACE = re.compile(rb"([0-9]+) ([0-9a-f]{8}) (.*)\n?")


@dataclass(frozen=True)
class CallOf:
    """A call of a block file: the program that replays it, the file, the call's number, the folder of all paths."""

    program: Path
    file: str
    number: int
    folder: Path = Path()

    def words(self, *options: str) -> list[str | Path]:
        return [self.program, "debug", self.file, "--call", str(self.number), *options]


class Place(NamedTuple):
    moment: int
    pc: int
    text: str


def place_of(answer: bytes) -> Place:
    fields = PLACE.fullmatch(answer)
    if fields is None:
        raise UserError(f"rvstm debug answered {answer!r} in place of a moment; please report it")
    return Place(int(fields[1]), int(fields[2], 16), fields[3].decode().strip())


class Debugger(Pipes):
    def __init__(self, call: CallOf, *options: str) -> None:
        super().__init__(call.words(*options), folder=call.folder)

    def say(self, lines: str) -> None:
        """Gives lines, as many as fit into a pipe; `answers_to_said` reads the answers."""
        self.give(lines.encode())

    def answers_to_said(self, count: int) -> Iterator[bytes]:
        missing = count
        for answer in self.lines(count):
            missing -= 1
            yield answer
        if missing:
            raise UserError(self.wait().said() or "rvstm debug ended before it answered")

    def answers(self, line: str, count: int) -> Iterator[bytes]:
        for first in range(0, count, LINES_AT_ONCE):
            part = min(LINES_AT_ONCE, count - first)
            self.say(f"{line}\n" * part)
            yield from self.answers_to_said(part)

    def answer_bytes(self, line: str) -> bytes:
        return next(self.answers(line, 1))

    def answer(self, line: str) -> str:
        return self.answer_bytes(line).decode().rstrip("\n")

    def here(self) -> Place:
        return place_of(self.answer_bytes("w"))

    def run_to_end(self) -> int:
        """Runs to the last moment. Returns how many steps the call has."""
        return place_of(self.answer_bytes(f"g {NO_INSTRUCTION}")).moment

    def registers(self) -> list[int]:
        return [int(word, 16) for word in self.answer("r").split(" ")[1:]]

    def memory(self, address: int, length: int) -> bytes | None:
        """Bytes of memory, or None if they are not all in it."""
        answer = self.answer(f"m {address:08x} {length}") if length <= MOST_BYTES else REFUSED
        return None if answer.startswith(REFUSED) else bytes.fromhex(answer.replace("-", ""))
