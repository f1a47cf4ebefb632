"""Blocks that commands are given: a block file, or a block of a list over what the blocks before it left."""

import os
import tempfile
from collections.abc import Iterator
from contextlib import contextmanager
from dataclasses import dataclass
from pathlib import Path

from rvstm_tools.errors import UserError
from rvstm_tools.programs import running
from rvstm_tools.programs.running import Program
from rvstm_tools.texts import lists
from rvstm_tools.texts.views import View

BEGIN = b"rvblock "


@dataclass(frozen=True)
class GivenBlock:
    """A block: its file, the folder of its programs, the number of a call there, and what is known of keys."""

    path: str
    folder: Path
    call: int
    view: View


def is_list(path: str) -> bool:
    """Whether a file is a list: its name says so, or it does not begin as a block file."""
    if lists.is_list(path) or not os.path.isfile(path):
        return lists.is_list(path)
    with open(path, "rb") as file:
        return file.read(len(BEGIN)) != BEGIN


@contextmanager
def of_call(program: Program, path: str, call: int, view: View | None) -> Iterator[GivenBlock]:
    """The block of a call, which is counted through the whole list. Without a view keys are shown as the list says."""
    if not is_list(path):
        yield GivenBlock(path, Path(), call, view or View())
        return
    file = lists.read_list(path)
    with lists.named(path):
        block, at = file.place_of(call)
    with of_block(program, path, block, view) as given:
        yield GivenBlock(given.path, given.folder, at, given.view)


@contextmanager
def of_block(program: Program, path: str, number: int | None, view: View | None) -> Iterator[GivenBlock]:
    """A block by its number in the list; without a number the only one."""
    if not is_list(path):
        yield GivenBlock(path, Path(), 0, view or View())
        return
    file, folder = lists.read_list(path), Path(path).parent
    count = len(file.blocks)
    if number is None and count > 1 or number is not None and number >= count:
        raise UserError(f"{path}: it has {count} block{'s' * (count > 1)}; --block N names one, from 0")
    for run in running.in_turn(program, file.blocks[: (number or 0) + 1], folder):
        running.check_of_list(program, path, file.blocks[0], run)
    with tempfile.TemporaryDirectory() as place:
        made = Path(place) / Path(path).name  # the name by which tools call it
        made.write_text(run.text, encoding="ascii")
        yield GivenBlock(str(made), folder, 0, view or file.view)
