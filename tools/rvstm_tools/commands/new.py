import argparse
import os
import shlex
import shutil
import subprocess
import sys
from pathlib import Path

from rvstm_tools.errors import Status, UserError
from rvstm_tools.options import Command, argument
from rvstm_tools.programs import compilers, finding
from rvstm_tools.templates import folders
from rvstm_tools.templates.folders import Language, TemplateNames

LAUNCHER = "rvstm-tools"
DETAILS = f"""\
FOLDER is made, or it is there and empty. Its last part names the contract. The contract keeps an amount for each account. In
FOLDER are then

    NAME.c or src/main.rs     the contract
    NAME.list                 a test of it, for `rvstm-tools test` and `rvstm-tools coverage`
    NAME.explore              a description of random calls, for `rvstm-tools explore`
    Makefile                  `make` builds the contract and runs the test, `make ci` also makes random calls
    .github                   what GitHub runs on each push: `make ci`
    README.md                 these commands
    compile_flags.txt         the compiler's flags, by which editors find the headers of the SDK; only for C
    Cargo.toml, .cargo        with --rust

A second contract is a second file NAME.c, or src/bin/NAME.rs: `make` builds it, too. Its calls follow rules 3.

The contract is built at once, as NAME.elf, and as NAME.lines.elf with its lines of source. If a compiler is missing, FOLDER is
made all the same, and the message says which of Debian's packages to install.

The Makefile, or Cargo.toml, names the SDK: that of this checkout, of the package rvstm-sdk, or the one that pip installed beside
these tools. Rust needs its own libraries for {compilers.TARGET}: `SDK/rust/build-libraries` builds them, once and as
root, of Debian's packages; with rustup `rustup target add {compilers.TARGET}` fetches them.

The status is 0 if the contract is built, 1 if it is not, and 2 for a wrong command line."""


def run(given: argparse.Namespace) -> int:
    folder: Path = given.folder
    language = Language.RUST if given.rust else Language.C
    name = finding.absolute(folder).name
    folders.check_name(name, language)
    sdk = finding.sdk()
    make_files(folder, folders.files_of(language, TemplateNames(name, str(sdk), words_of_tools())))
    lack = compilers.lack(sdk, is_rust=given.rust)
    if lack:
        raise UserError(f"{folder} is made, and not built: {lack}; then run `make` in {folder}")
    build(folder, name)
    print(f"built {folder / name}.elf; `make` in {folder} builds it again and runs its test")
    return Status.DONE


def words_of_tools() -> str:
    """How a shell runs these tools: by their name if it is on the path, otherwise by the path of this process."""
    if shutil.which(LAUNCHER):
        return LAUNCHER
    started = finding.absolute(sys.argv[0])
    return shlex.quote(str(started)) if started.name == LAUNCHER else f"{shlex.quote(sys.executable)} -m rvstm_tools"


def make_files(folder: Path, files: dict[str, str]) -> None:
    """Writes files by their paths in a folder, which is made, or is empty: a UserError otherwise."""
    folder.mkdir(parents=True, exist_ok=True)
    if any(folder.iterdir()):
        raise UserError(f"{folder}: it is there, and is not empty")
    for name, text in files.items():
        path = folder / name
        path.parent.mkdir(parents=True, exist_ok=True)
        path.write_text(text, encoding="utf-8")
    print(f"{folder}: {', '.join(files)}")


def build(folder: Path, name: str) -> None:
    """Makes the program and its lines by `make`. A UserError has its status."""
    words = ["make", "-s", f"{name}.elf", f"{name}.lines.elf"]
    environment = {key: value for key, value in os.environ.items() if key not in ("MAKEFLAGS", "MAKELEVEL")}
    done = subprocess.run(words, cwd=folder, env=environment, stdin=subprocess.DEVNULL, stdout=subprocess.DEVNULL, check=False)
    if done.returncode:
        raise UserError(f"{folder} is made, and `{' '.join(words)}` there ended with status {done.returncode}")


COMMAND = Command(
    summary="Makes a folder with a contract, its test and a description of random calls.",
    details=DETAILS,
    example="rvstm-tools new votes && rvstm-tools test votes",
    run=run,
    arguments=(
        argument("folder", type=Path, metavar="FOLDER", help="the folder to make"),
        argument("--rust", action="store_true", help="a contract in Rust; without it one in C"),
    ),
)
