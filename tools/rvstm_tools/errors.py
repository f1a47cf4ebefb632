"""What is reported if a command cannot continue, and the statuses that commands end with.

A mistake of the user is reported in one line: a wrong word in a list, a file that is missing, a closed pipe. Only `UserError` and
`OSError` are reported so. Every other exception is a mistake of these tools, and stays a traceback.
"""

import enum
import io
import os
import re
import signal
import sys
from collections.abc import Callable, Iterable, Iterator
from contextlib import contextmanager
from types import FrameType


CONTROLS = re.compile("[\0-\x08\x0b-\x1f\x7f-\x9f\u200e\u200f\u2028-\u202e\u2066-\u2069]")
"""Letters that change what a terminal shows of others, such as an escape sequence; not line ends and tabs."""


class Status(enum.IntEnum):
    DONE = 0
    FAILED = 1  # what was asked for does not hold, or the command cannot continue
    MISUSED = 2  # the command line is wrong; in `test` and `explore`, a list is
    INTERRUPTED = 130


class UserError(Exception):
    """What is reported to the user, in one line."""


class MisuseError(UserError):
    """What is wrong with the command line."""


def printable(text: str) -> str:
    """A text with its control characters by their numbers."""
    return CONTROLS.sub(lambda found: found[0].encode("unicode_escape").decode(), text)


class PrintableOutput(io.TextIOWrapper):
    """Prints texts of strangers, such as names of functions: no control character reaches a terminal."""

    def write(self, text: str, /) -> int:
        return super().write(printable(text))


def print_all_letters() -> None:
    """Lets standard output take each text. Letters that its encoding lacks, and controls, become numbers."""
    if isinstance(sys.stdout, io.TextIOWrapper):
        encoding, lines, at_once = sys.stdout.encoding, sys.stdout.line_buffering, sys.stdout.write_through
        buffer = sys.stdout.detach()
        sys.stdout = PrintableOutput(buffer, encoding, "backslashreplace", line_buffering=lines, write_through=at_once)


def reason(error: Exception) -> str:
    if isinstance(error, BrokenPipeError):
        return "the output is closed"
    if isinstance(error, OSError):
        name = "" if error.filename is None else f"{error.filename}: "
        return printable(f"{name}{error.strerror}")
    return printable(str(error).split("\n")[0])


def ended(name: str, run: Callable[[], int]) -> int:
    """Runs a command and returns its status. A user's mistake is one line on standard error, after the name."""
    try:
        try:
            return run()
        finally:
            sys.stdout.flush()
    except KeyboardInterrupt:
        fault, status = "interrupted", Status.INTERRUPTED
    except (UserError, OSError) as error:
        fault, status = reason(error), Status.MISUSED if isinstance(error, MisuseError) else Status.FAILED
    drop_output()
    print(f"{name}: {fault}", file=sys.stderr)
    return status


def warn(place: str, warnings: Iterable[str]) -> None:
    """Prints warnings on standard error, each in a line with its place. They change no status."""
    for text in warnings:
        print(printable(f"warning: {place}: {text}"), file=sys.stderr)


@contextmanager
def taken_for_misuse() -> Iterator[None]:
    """Takes a mistake of the user within it for one of the command line."""
    try:
        yield
    except BrokenPipeError:
        raise
    except (UserError, OSError) as error:
        raise MisuseError(reason(error)) from error


@contextmanager
def ended_by_signal() -> Iterator[None]:
    """Takes SIGTERM for Ctrl-C, so that a command can print what it has so far."""

    def interrupt(number: int, frame: FrameType | None) -> None:
        raise KeyboardInterrupt

    before = signal.signal(signal.SIGTERM, interrupt)
    try:
        yield
    finally:
        signal.signal(signal.SIGTERM, before)


def drop_output() -> None:
    """Sends what standard output still holds to nowhere, so that Python does not write it at its end."""
    try:
        standard_output = sys.stdout.fileno()
    except io.UnsupportedOperation:  # a test put a text in its place
        return
    nowhere = os.open(os.devnull, os.O_WRONLY)
    os.dup2(nowhere, standard_output)
    os.close(nowhere)
