"""A run of the program over a large input."""

from collections.abc import Callable, Mapping
from typing import NamedTuple

USUAL_STACK = 8192  # KiB, as a shell has it


class Trial(NamedTuple):
    """A run of the program: its words, its input, the files there, and what it has to print or to write to a file."""

    words: list[str]
    wanted: bytes | None = b""
    errors: bytes = b""
    status: int = 0
    input: bytes = b""
    files: Mapping[str, bytes] = {}
    file: str | None = None
    stack: int = USUAL_STACK


Make = Callable[[], Trial]  # how a trial is made, if it is asked for
