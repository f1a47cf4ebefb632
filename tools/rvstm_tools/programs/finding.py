"""Where the program rvstm is: named on the command line, by RVSTM, or found from the place of these tools."""

import os
import shutil
import sys
from collections.abc import Mapping, Sequence
from dataclasses import dataclass
from pathlib import Path

from rvstm_tools.errors import UserError
from rvstm_tools.options import ProgramChoice
from rvstm_tools.programs.running import Program

VARIABLE = "RVSTM"
BUILT = "crates/rvstm/out/rvstm"
PREVIEW = "crates/rvstm/out/preview/rvstm"
WAYS_TO_BUILD = (
    "`rvstm-tools example counter` proves and builds it; `rvstm-tools preview counter` makes an unproved one, in a few minutes, "
    "for --preview; --program or RVSTM may name another"
)
WAY_TO_PREVIEW = "`rvstm-tools preview counter` makes it, in a few minutes"
ONLY_IN_CHECKOUT = "only a checkout makes it, by `rvstm-tools preview`"
WAYS_TO_INSTALL = "the package rvstm has it; --program or RVSTM may name another"
INSTALLED = "share/rvstm-sdk"
PREFIXES = (Path(sys.prefix), Path("/usr/local"), Path("/usr"))
"""Where the SDK may be if it is not beside these tools: as pip does, in the folder of the Python that runs."""


@dataclass(frozen=True)
class Home:
    top: Path  # the folder that has the examples and the SDK: a checkout, or share/rvstm-sdk of a package or of an archive
    is_checkout: bool = True
    beside: Path | None = None  # the program of the same archive


def home_of(package: Path, prefixes: Sequence[Path] = PREFIXES) -> Home:
    """Where tools are whose package is this folder: TOP/tools/rvstm_tools, PREFIX/share/rvstm-sdk/tools/rvstm_tools, or a folder
    of Python's packages, for which the SDK is in share/rvstm-sdk of one of the prefixes."""
    top = package.parent.parent
    if (top / "crates.txt").is_file():
        return Home(top)
    if not (top / "sdk").is_dir():
        places = [prefix / INSTALLED for prefix in prefixes]
        top = next((place for place in places if (place / "sdk").is_dir()), places[0])
    beside = top.parent.parent / "bin/rvstm"
    return Home(top, is_checkout=False, beside=beside if is_program(beside) else None)


def home() -> Home:
    return home_of(Path(__file__).resolve().parents[1])


def sdk() -> Path:
    """The folder of the SDK. A UserError if these tools have none."""
    path = home().top / "sdk"
    if not (path / "Makefile").is_file():
        raise UserError(f"{path}: no SDK; the package rvstm-sdk has it, and pip installs it with these tools from a checkout")
    return path


def sdk_prefix() -> str:
    """How the paths of the files of the SDK begin in lines of sources."""
    return os.path.realpath(home().top / "sdk") + os.sep


def absolute(path: Path | str) -> Path:
    """A path that holds in every folder, without `..` if that is not needed."""
    return Path(os.path.abspath(path))


def is_program(path: Path) -> bool:
    return path.is_file() and os.access(path, os.X_OK)


def find(choice: ProgramChoice, place: Home, environment: Mapping[str, str]) -> Path:
    """A program that may be run. A UserError says how to get one."""
    path, cure = candidate(choice, place, environment)
    if not is_program(path):
        raise UserError(f"{path}: no program; {cure}")
    return path


def candidate(choice: ProgramChoice, place: Home, environment: Mapping[str, str]) -> tuple[Path, str]:
    """The path at which the program is looked for, and what to do if it is not there."""
    if choice.path:
        return absolute(choice.path), "--program names it"
    if choice.is_preview:
        return place.top / PREVIEW, WAY_TO_PREVIEW if place.is_checkout else ONLY_IN_CHECKOUT
    if environment.get(VARIABLE):
        return absolute(environment[VARIABLE]), "RVSTM names it"
    if place.is_checkout:
        return place.top / BUILT, WAYS_TO_BUILD
    if place.beside:
        return place.beside, WAYS_TO_INSTALL
    on_path = shutil.which("rvstm", path=environment.get("PATH"))
    if on_path is None:
        raise UserError(f"rvstm: no program; {WAYS_TO_INSTALL}")
    return Path(on_path), WAYS_TO_INSTALL


def chosen(choice: ProgramChoice, command: str) -> Program:
    """The program that a command runs. An unproved one is reported."""
    path = find(choice, home(), os.environ)
    if choice.is_preview:
        print(f"{command}: by an unproved program, {path}", file=sys.stderr, flush=True)
    return Program(path)
