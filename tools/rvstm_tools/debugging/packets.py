"""The packets of gdb's remote protocol, over two files (GDB's manual, "Overview" of the remote protocol)."""

import os
import re
import select
import time
from collections.abc import Callable
from dataclasses import dataclass

from rvstm_tools.debugging.moments import InterruptedMove

INTERRUPT = b"\x03"
SECONDS_OF_INTERRUPT = 1  # for which it counts, since gdb may send it after a move has ended
PART = 65536  # bytes that are read at once
LONGEST_PACKET = 1 << 20  # bytes that are kept without an end of a packet
CHECKSUM = re.compile(b"[0-9a-fA-F]{2}")
ESCAPED = re.compile(rb"[#$}*]")


@dataclass(frozen=True)
class Ends:
    """Where packets come from and go to: the numbers of two open files."""

    input: int = 0
    output: int = 1


class Wire:
    def __init__(self, ends: Ends = Ends(), clock: Callable[[], float] = time.monotonic) -> None:
        self.ends = ends
        self.clock = clock
        self.data = b""
        self.acknowledges = True
        self.is_open = True
        self.interrupted: float | None = None  # when the last interrupt came that did not stop a move yet

    def read(self) -> None:
        part = os.read(self.ends.input, PART)
        self.is_open = bool(part)
        self.data += part

    def skip(self) -> None:
        """Passes over bytes that are no packet, and notes an interrupt among them."""
        count = len(self.data.partition(b"$")[0])
        if INTERRUPT in self.data[:count]:
            self.interrupted = self.clock()
        self.data = self.data[count:]

    def hear(self) -> None:
        """Stops a move, also one that begins, if gdb has sent an interrupt."""
        if self.is_open and select.select([self.ends.input], [], [], 0)[0]:
            self.read()
        self.skip()
        if self.interrupted is not None:
            is_new = self.clock() - self.interrupted < SECONDS_OF_INTERRUPT
            self.interrupted = None
            if is_new:
                raise InterruptedMove

    def packet(self) -> str | None:
        """The next packet, or None at the end of the input."""
        while self.is_open:
            self.skip()
            end = self.data.find(b"#")
            if end < 0 or len(self.data) < end + 3:
                if len(self.data) > LONGEST_PACKET:
                    self.data = b""
                self.read()
                continue
            body, checksum = self.data[1:end], self.data[end + 1 : end + 3]
            self.data = self.data[end + 3 :]
            is_sound = not self.acknowledges or checksum.lower() == checksum_of(body)
            if self.acknowledges:
                self.write(b"+" if is_sound else b"-")
            if is_sound:
                return body.decode("latin-1")
        return None

    def write(self, data: bytes) -> None:
        view = memoryview(data)
        while view:
            view = view[os.write(self.ends.output, view) :]

    def send(self, text: str) -> None:
        body = ESCAPED.sub(lambda found: b"}" + bytes([found[0][0] ^ 0x20]), text.encode())
        self.write(b"$%s#%s" % (body, checksum_of(body)))

    def show(self, text: str) -> None:
        """Prints a text in gdb; only while gdb waits for a stop."""
        self.send("O" + text.encode().hex())


def checksum_of(body: bytes) -> bytes:
    """Two digits in hex."""
    return b"%02x" % (sum(body) % 256)
