"""What several tests share: files in a folder of their own, and a program that is used in place of rvstm."""

import contextlib
import io
import tempfile
import unittest
from collections.abc import Sequence
from pathlib import Path
from unittest import mock

from rvstm_tools.commandline import main
from rvstm_tools.programs.running import Printed


class InFolder(unittest.TestCase):
    """Tests that have a folder, which is removed after each of them."""

    def setUp(self) -> None:
        place = tempfile.TemporaryDirectory()
        self.addCleanup(place.cleanup)
        self.folder = Path(place.name)

    def write(self, name: str, content: str | bytes) -> str:
        """The path of a new file. One that is there is removed first: ext4 takes milliseconds to write over a file."""
        path = self.folder / name
        path.unlink(missing_ok=True)
        path.write_bytes(content if isinstance(content, bytes) else content.encode())
        return str(path)


class FakeProgram:
    """Used in place of rvstm: `seq BLOCK` and `run BLOCK --workers N` print what is given for them."""

    def __init__(self, seq: Printed | Sequence[Printed], by_workers: dict[int, Printed] | None = None) -> None:
        self.seq = [seq] if isinstance(seq, Printed) else seq  # for each block; the last one is for all further ones
        self.by_workers = by_workers or {}
        self.blocks: list[str] = []
        """The block files that `seq` was given."""

    def run(self, words: Sequence[str], folder: Path) -> Printed:
        command, path, *options = words
        if (command, options) == ("seq", []):
            self.blocks.append(Path(path).read_text(encoding="utf-8"))
            return self.seq[min(len(self.blocks), len(self.seq)) - 1]
        if (command, options[:1]) != ("run", ["--workers"]):
            raise AssertionError(f"a command that rvstm does not have: {words}")
        return self.by_workers[int(options[1])]


def called_with(text: str, *words: str) -> tuple[int, str, str]:
    """The same of a command line that reads a text from standard input."""
    with mock.patch("sys.stdin", io.StringIO(text)):
        return called(*words)


def called(*words: str) -> tuple[int, str, str]:
    """The status of a command line, its output and its errors."""
    output, faults = io.StringIO(), io.StringIO()
    with contextlib.redirect_stdout(output), contextlib.redirect_stderr(faults):
        try:
            status = main(words)
        except SystemExit as end:  # of argparse
            status = int(end.code or 0)
    return status, output.getvalue(), faults.getvalue()
