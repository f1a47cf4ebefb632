"""The command line of `rvstm-tools`: the parser of all subcommands, and how each of them ends."""

import argparse
import importlib
import sys
from collections.abc import Sequence

from rvstm_tools import errors
from rvstm_tools.options import Command

NAMES = (
    "block", "conflicts", "coverage", "example", "explore", "gdb", "library", "new", "preview", "release", "result", "schedule", "session",
    "test", "trace", "verify",
)
"""Of the commands. Each is the `COMMAND` of the module of its name, which is loaded only if it is asked for: most of the time of
a short run goes into loading modules."""


def command_of(name: str) -> Command:
    command: Command = importlib.import_module(f"rvstm_tools.commands.{name}").COMMAND
    return command


def parser_of(commands: Sequence[Command]) -> argparse.ArgumentParser:
    parser = argparse.ArgumentParser(prog="rvstm-tools", description="Writes, builds, tests and debugs contracts for rvstm.")
    subparsers = parser.add_subparsers(title="commands", metavar="COMMAND", required=True)
    for command in commands:
        subparser = subparsers.add_parser(
            command.name, help=command.summary, description=f"{command.summary}\n\n{command.manual()}",
            epilog=f"example:\n  {command.example}", formatter_class=argparse.RawDescriptionHelpFormatter,
        )
        for add in command.arguments:
            add(subparser)
        subparser.set_defaults(command=command)
    return parser


def subparsers_of(parser: argparse.ArgumentParser) -> dict[str, argparse.ArgumentParser]:
    (choices,) = (action.choices for action in parser._actions if isinstance(action.choices, dict))
    return choices


def main(words: Sequence[str] | None = None) -> int:
    """Runs the command that the words name, by default those of the command line."""
    words = sys.argv[1:] if words is None else words
    errors.print_all_letters()
    names = words[:1] if words and words[0] in NAMES else NAMES
    given = parser_of([command_of(name) for name in names]).parse_args(words)
    command: Command = given.command
    return errors.ended(command.name, lambda: command.run(given))
