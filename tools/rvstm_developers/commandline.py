"""The command line of the developers' commands: which there are, the parser of each, and how it ends."""

import argparse
import importlib
import sys
from collections.abc import Sequence
from pathlib import Path

from rvstm_tools import errors
from rvstm_tools.options import Command

PROGRAM = "rvstm-developers"
GROUPS = {
    "trials": "try the program for as long as they are given: damaged, random and large inputs, kills, cuts and faults, beside models",
    "bench": "measure the program: bench/README.md has what they print",
    "commands": "check the sources, and make parts of them",
}
"""The packages that have a module for each command, and what the commands of each do."""


def modules() -> dict[str, str]:
    """The module of each command, by the command's name."""
    found = {}
    for group in GROUPS:
        for path in sorted((Path(__file__).parent / group).glob("*.py")):
            if "\nCOMMAND = Command(" in path.read_text(encoding="utf-8"):
                found[path.stem.replace("_", "-")] = f"rvstm_developers.{group}.{path.stem}"
    return found


def command_of(name: str) -> Command:
    module = modules().get(name)
    if module is None:
        raise errors.MisuseError(f"no command is named {name!r}; `{PROGRAM} --help` lists them")
    command: Command = importlib.import_module(module).COMMAND
    return command


def listing() -> str:
    """All commands, each with what it does."""
    lines = [f"usage: {PROGRAM} NAME [WORD..]", "", f"`{PROGRAM} NAME --help` has all of a command."]
    for group, what in GROUPS.items():
        lines += ["", f"These {what}:", ""]
        names = [name for name, module in modules().items() if f".{group}." in module]
        lines += [f"  {name:17} {command_of(name).summary}" for name in names]
    return "\n".join(lines)


def parser_of(command: Command) -> argparse.ArgumentParser:
    parser = argparse.ArgumentParser(
        prog=f"{PROGRAM} {command.name}", description=f"{command.summary}\n\n{command.manual().strip()}",
        epilog=f"example:\n  {PROGRAM} {command.name} {command.example}", formatter_class=argparse.RawDescriptionHelpFormatter,
    )
    for add in command.arguments:
        add(parser)
    return parser


def run(name: str, words: Sequence[str]) -> int:
    command = command_of(name)
    return command.run(parser_of(command).parse_intermixed_args(words))


def main() -> int:
    errors.print_all_letters()
    name, *words = sys.argv[1:] or [""]
    if name in ("-h", "--help"):
        print(listing())
        return errors.Status.DONE
    return errors.ended(name or PROGRAM, lambda: run(name, words))
