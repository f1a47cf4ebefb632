"""Runs of the program rvstm that print something and end."""

import re
import subprocess
import tempfile
from collections.abc import Iterable, Iterator, Sequence
from contextlib import contextmanager
from dataclasses import dataclass
from functools import cached_property
from pathlib import Path
from typing import Protocol

from rvstm_tools.errors import UserError
from rvstm_tools.texts import blocks, results
from rvstm_tools.texts.blocks import Block
from rvstm_tools.texts.keys import Storage
from rvstm_tools.texts.results import Result

OF_A_PROGRAM_FILE = re.compile("rvstm: (elf|file) ")
OF_A_LINE = re.compile("rvstm: block ([0-9]+) ")
PROGRAM_LINE = re.compile(r"program \S+ (\S+)\s*")


@dataclass(frozen=True)
class Printed:
    """What a run printed, and the line by which it was refused, which is empty if it was not."""

    text: str
    refusal: str = ""


class Runner(Protocol):
    """What runs a command of rvstm: the program, or in tests of these tools something in its place."""

    def run(self, words: Sequence[str], folder: Path) -> Printed:
        """Runs the command of these words in a folder, from where it takes the paths of files."""


@dataclass(frozen=True)
class Program:
    path: Path
    seconds: float | None = None  # how long a run may last

    def run(self, words: Sequence[str], folder: Path) -> Printed:
        try:
            done = subprocess.run(
                [self.path, *words], cwd=folder, stdin=subprocess.DEVNULL, capture_output=True, timeout=self.seconds,
                encoding="ascii", errors="backslashreplace", check=False,
            )
        except subprocess.TimeoutExpired as error:
            raise UserError(f"`rvstm {' '.join(words)}` did not end in {self.seconds} seconds") from error
        if done.returncode == 0:
            return Printed(done.stdout)
        return Printed(done.stdout, done.stderr.strip() or f"rvstm ended with status {done.returncode}")


@contextmanager
def temporary_file(text: str, suffix: str) -> Iterator[str]:
    """The path of a file with a text, which is there within a `with`."""
    with tempfile.NamedTemporaryFile("w", suffix=suffix, encoding="ascii", errors="replace") as file:
        file.write(text)
        file.flush()
        yield file.name


def run_block(runner: Runner, command: str, text: str, folder: Path, *options: str) -> Printed:
    with temporary_file(text, ".block") as path:
        return runner.run([command, path, *options], folder)


@dataclass
class InTurn:
    """A block of a list that was run over what the blocks before it left: its text, and what `seq` printed."""

    text: str
    printed: Printed

    @cached_property
    def result(self) -> Result:
        return results.result_of(self.printed.text)


def in_turn(runner: Runner, of_list: Iterable[Block], folder: Path, paths: Sequence[str] | None = None) -> Iterator[InTurn]:
    """Runs the blocks of a list, until one is refused; by other programs if some are given."""
    storage: Storage = {}
    for block in of_list:
        text = block.text(paths, storage)
        run = InTurn(text, run_block(runner, "seq", text, folder))
        yield run
        if run.printed.refusal:
            return
        storage = run.result.storage


def check_of_list(runner: Runner, path: Path | str, block: Block, run: InTurn) -> None:
    """Refuses a block of a list that rvstm refuses, with the program that it is for."""
    if refusal := run.printed.refusal:
        program = refused_path(runner, block.paths(), refusal, Path(path).parent)
        raise UserError(f"{path}{f', {program}' if program else ''}: {refusal}")


def run_file(runner: Runner, command: str, path: str, folder: Path = Path()) -> str:
    """What a command of rvstm prints for a block file. A refusal names the line and the program that it is for."""
    printed = runner.run([command, path], folder)
    if printed.refusal:
        raise UserError(placed_refusal(runner, path, printed.refusal))
    return printed.text


def placed_refusal(runner: Runner, file: str, refusal: str) -> str:
    """A refusal of a block file, with the line and the program that it is for."""
    programs: dict[str, int] = {}
    with open(file, encoding="ascii", errors="backslashreplace") as lines:
        for number, line in enumerate(lines, 1):
            if found := PROGRAM_LINE.fullmatch(line):
                programs.setdefault(found[1], number)
    path = refused_path(runner, programs, refusal, Path())
    if path is not None:
        return f"{file}, line {programs[path]}, {path}: {refusal}"
    of_line = OF_A_LINE.match(refusal)
    return f"{file}{f', line {of_line[1]}' if of_line else ''}: {refusal}"


def refused_path(runner: Runner, paths: Iterable[str], refusal: str, folder: Path) -> str | None:
    """The path of the program for which a block is refused; None if it is refused for something else. rvstm does not name it,
    so a block of each program alone is run."""
    if not OF_A_PROGRAM_FILE.match(refusal):
        return None
    for path in dict.fromkeys(paths):
        if run_block(runner, "seq", blocks.text([path]), folder).refusal == refusal:
            return path
    return None
