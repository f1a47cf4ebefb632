"""A process whose input and output are pipes: bytes and lines go in, lines and bytes come out."""

import subprocess
from collections.abc import Iterator, Sequence
from itertools import islice
from pathlib import Path
from types import TracebackType
from typing import IO, NamedTuple, Self


class Ended(NamedTuple):
    """What a process wrote after its last input, what is on standard error, and its status."""

    output: bytes
    errors: bytes
    status: int

    def said(self) -> str:
        return self.errors.decode(errors="backslashreplace").strip()


class Pipes:
    """A process. As a context it is killed at the end."""

    def __init__(self, words: Sequence[str | Path], *, folder: Path = Path(), is_as_here: bool = False) -> None:
        """Starts the process in a folder. `is_as_here` says that it ignores the signals that Python ignores: SIGPIPE and SIGXFSZ.
        Otherwise Python resets them before the process begins."""
        pipe = subprocess.PIPE
        self.process = subprocess.Popen(words, cwd=folder, stdin=pipe, stdout=pipe, stderr=pipe, restore_signals=not is_as_here)

    def __enter__(self) -> Self:
        return self

    def __exit__(
        self, kind: type[BaseException] | None = None, error: BaseException | None = None, trace: TracebackType | None = None
    ) -> None:
        self.kill()

    @property
    def output(self) -> IO[bytes]:
        assert self.process.stdout is not None
        return self.process.stdout

    def kill(self) -> None:
        self.process.kill()
        self.process.communicate()

    def give(self, data: bytes) -> bool:
        """Whether the process, which may have ended, took some bytes."""
        assert self.process.stdin is not None
        try:
            self.process.stdin.write(data)
            self.process.stdin.flush()
        except BrokenPipeError:
            return False
        return True

    def lines(self, count: int) -> Iterator[bytes]:
        """So many lines of the output; fewer if it ends before."""
        return islice(self.output, count)

    def wait(self) -> Ended:
        assert self.process.stderr is not None
        errors = self.process.stderr.read()
        return Ended(b"", errors, self.process.wait())

    def end(self, data: bytes = b"") -> Ended:
        """Gives the last bytes of the input, and waits for the end."""
        try:
            output, errors = self.process.communicate(data)
        except BrokenPipeError:
            output, errors = b"", b""
        return Ended(output, errors, self.process.wait())
