"""The man page and the completion of rvstm-tools, made of its parsers."""

import argparse
from collections.abc import Iterable, Iterator, Sequence
from dataclasses import dataclass

from rvstm_tools import commandline
from rvstm_tools.options import Command
from rvstm_tools.releases.roff import as_it_is, escaped, roman

PAGE, COMPLETION = "man/rvstm-tools.1", "completions/rvstm-tools.bash"
MAKER = "rvstm-developers tool-pages"
NAME = "writes, builds, tests and debugs contracts for rvstm"
STATUSES = {
    0: "done, or what was asked for holds",
    1: "what was asked for does not hold, or the command cannot continue: standard error has one line, which begins with the "
    "command's name",
    2: "a wrong command line; of test and explore also a wrong list or description, or no program",
    130: "interrupted",
}


@dataclass(frozen=True)
class Parsed:
    command: Command
    parser: argparse.ArgumentParser

    def options(self) -> list[argparse.Action]:
        return [action for action in self.parser._actions if action.option_strings]

    def arguments(self) -> list[argparse.Action]:
        return [action for action in self.parser._actions if not action.option_strings]


def all_parsed() -> list[Parsed]:
    commands = [commandline.command_of(name) for name in commandline.NAMES]
    parsers = commandline.subparsers_of(commandline.parser_of(commands))
    return [Parsed(command, parsers[command.name]) for command in commands]


def shown(action: argparse.Action) -> str:
    place = f"<{action.metavar}>" if action.metavar else ""
    if not action.option_strings:
        return f"[{place}]" if action.nargs == "?" else f"{place}.." if action.nargs in ("*", "+") else place
    return f"{', '.join(action.option_strings)} {place}".rstrip()


def usage_of(parsed: Parsed) -> str:
    needed = [shown(action) for action in parsed.options() if action.required]
    words = ["rvstm-tools", parsed.command.name, "[OPTIONS]", *needed, *map(shown, parsed.arguments())]
    return " ".join(words)


def page_lines(parsed: Sequence[Parsed], version: str) -> Iterator[str]:
    yield f'.\\" Made by {MAKER} of the parsers of rvstm-tools: change these, and make the page again.'
    yield f'.TH RVSTM-TOOLS 1 "" "rvstm-tools {version}" "User Commands"'
    yield from (".SH NAME", rf"rvstm-tools \- {NAME}", ".SH SYNOPSIS")
    for number, one in enumerate(parsed):
        yield from ([".br"] if number else []) + [roman(usage_of(one))]
    yield ".SH COMMANDS"
    for one in parsed:
        yield from (f'.SS "rvstm-tools {one.command.name}"', escaped(one.command.summary))
        yield from as_it_is(["", *one.command.manual().splitlines(), ""])
        for action in [*one.arguments(), *one.options()]:
            yield from (".TP", roman(shown(action)), escaped(action.help or ""))
        yield from (".PP", "Example:", *as_it_is(["", f"    {one.command.example}"]))
    yield ".SH EXIT STATUS"
    for status, text in STATUSES.items():
        yield from (".TP", f".B {status}", escaped(text))
    yield from (".SH ENVIRONMENT", ".TP", ".B RVSTM", "the program rvstm, if neither \\-\\-program nor \\-\\-preview is given")
    yield from (".SH SEE ALSO", ".BR rvstm (1)")


def page_of(version: str) -> str:
    return "".join(f"{line}\n" for line in page_lines(all_parsed(), version))


def option_names(actions: Iterable[argparse.Action]) -> str:
    return " ".join(name for action in actions for name in action.option_strings if name.startswith("--"))


def completion() -> str:
    parsed = all_parsed()
    cases = "".join(f'    {one.command.name}) options="{option_names(one.options())}" ;;\n' for one in parsed)
    names = " ".join(one.command.name for one in parsed)
    return f"""\
# Made by {MAKER}. Completes the commands, options and files of rvstm-tools in bash: source {COMPLETION}
_rvstm_tools() {{
    local word=${{COMP_WORDS[COMP_CWORD]}} options=""
    if [ "$COMP_CWORD" = 1 ]; then
        COMPREPLY=($(compgen -W "{names} --help" -- "$word"))
        return
    fi
    case ${{COMP_WORDS[1]}} in
{cases}    esac
    if [[ $word == -* ]]; then
        COMPREPLY=($(compgen -W "$options" -- "$word"))
    else
        mapfile -t COMPREPLY < <(compgen -f -- "$word")
        compopt -o filenames 2>/dev/null
    fi
}}
complete -F _rvstm_tools rvstm-tools
"""
