"""What all subcommands share: their shape, and the options that several of them have."""

import argparse
import inspect
import os
from collections.abc import Callable
from dataclasses import dataclass
from pathlib import Path
from typing import Any, TypeVar

from rvstm_tools.errors import UserError
from rvstm_tools.texts import lists, numbers
from rvstm_tools.texts.views import View

MOST_ASKED_FOR = 2**63 - 1
Parsed = TypeVar("Parsed")


def count(word: str) -> int:
    """A number of at least 1, as argparse wants the type of an option."""
    number = numbers.at_most(word, MOST_ASKED_FOR) if numbers.is_decimal(word) else None
    if not number:
        raise argparse.ArgumentTypeError(f"{word}: it is a number of at least 1")
    return number


def positive(word: str) -> float:
    """A number above 0, as argparse wants the type of an option."""
    try:
        number = float(word)
    except ValueError:
        number = 0.0
    if not 0 < number < float("inf"):
        raise argparse.ArgumentTypeError(f"{word}: it is a number above 0")
    return number


def new_file(word: str) -> Path:
    """The path of a file that is written at the end of a long run: its folder has to be there at the beginning."""
    path = Path(word)
    if not path.parent.is_dir():
        raise argparse.ArgumentTypeError(f"{word}: its folder is not there")
    return path


def checked(parse: Callable[[str], Parsed]) -> Callable[[str], Parsed]:
    """The type of an argument whose parser reports what is wrong with a word."""

    def parsed(word: str) -> Parsed:
        try:
            return parse(word)
        except UserError as error:
            raise argparse.ArgumentTypeError(str(error)) from error

    return parsed


def number(least: int, most: int, what: str = "it") -> Callable[[str], int]:
    return checked(lambda word: numbers.number_of(word, least, most, what))


Adder = Callable[[argparse.ArgumentParser], object]  # adds an argument or an option to a parser


def argument(*names: str, **how: Any) -> Adder:
    """An argument or an option, as argparse describes it."""
    return lambda parser: parser.add_argument(*names, **how)


@dataclass(frozen=True)
class Command:
    summary: str
    example: str
    run: Callable[[argparse.Namespace], int]
    arguments: tuple[Adder, ...] = ()
    details: str = ""
    """What its help says after the summary; if it is empty, the text beside the file of its module does."""

    @property
    def name(self) -> str:
        """That of its module."""
        return self.run.__module__.rpartition(".")[2].replace("_", "-")

    def manual(self) -> str:
        """All that its help says after the summary."""
        text = Path(inspect.getfile(self.run)).with_suffix(".txt")
        return self.details or text.read_text(encoding="utf-8").rstrip("\n")


@dataclass(frozen=True)
class ProgramChoice:
    """The program that the command line asks for: a path, the unproved one, or whichever there is."""

    path: Path | None = None
    is_preview: bool = False


def add_program(parser: argparse.ArgumentParser) -> None:
    group = parser.add_mutually_exclusive_group()
    group.add_argument(
        "--program", type=Path, metavar="PATH", help="the program rvstm; without it the one that RVSTM names, or the one that is found",
    )
    group.add_argument(
        "--preview", action="store_true",
        help="runs the unproved program that `rvstm-tools preview` makes: slow, but there in a few minutes",
    )


def program_choice(given: argparse.Namespace) -> ProgramChoice:
    return ProgramChoice(given.program, given.preview)


LIST = argument("--list", metavar="LIST", help="a list: keys are printed by its words table: and row:, values by its lines shape")
CALL = (
    argument("file", metavar="FILE", help="a block file, whose programs are taken from the current folder, or a list"),
    argument("--call", type=int, required=True, metavar="N", help="the number of the call, from 0; in a list through all of its blocks"),
)
SEED = argument("--seed", type=int, default=1, metavar="N", help="another number draws other things (1)")
JOBS = argument(
    "--jobs", type=count, default=len(os.sched_getaffinity(0)), metavar="N", help="how many run at once (as many as there are processors)",
)


def view(given: argparse.Namespace) -> View | None:
    """The view of the list that --list names; None without it."""
    return None if given.list is None else lists.read_list(given.list).view
