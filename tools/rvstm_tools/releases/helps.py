"""The man page of rvstm, made of what `rvstm --help` and the help of each command print."""

import re
import subprocess
from collections.abc import Iterable, Iterator
from dataclasses import dataclass, field
from pathlib import Path
from typing import NamedTuple

from rvstm_tools.errors import UserError
from rvstm_tools.releases.roff import escaped, roman

PAGE = "man/rvstm.1"
MAKER = "rvstm-developers man-page"
HEAD = re.compile(r"^(\w[\w ]*):$")
ITEM = re.compile(r"^ {2,}(\S.*?)(?: {2,}(\S.*))?$")
OPTIONS = "\nOptions:\n"
NAME = "executes blocks of contract calls, in order or on threads"
ENDING = r"""
.SH EXIT STATUS
.TP
.B 0
done, also for help and the version
.TP
.B 1
refused: standard error has one line, such as
.BR "rvstm: block 1 BadHeader 1" .
Standard output is empty, except for a result that could not be written whole, or whose counts could not be written, and
for the answers of a session that was cut
.TP
.B 2
a wrong command line
.SH SEE ALSO
formats.md has every file, request and answer exactly. messages.md has each refusal, when it comes and what to do.
Debian's package puts both into /usr/share/doc/rvstm.
"""


class Item(NamedTuple):
    name: str
    text: str


@dataclass
class Help:
    """What a help says: its first line, its usage, the items of each further part, and the lines after the options."""

    about: str
    usage: str = ""
    parts: dict[str, list[Item]] = field(default_factory=dict)
    ending: list[str] = field(default_factory=list)


def help_of(text: str, name: str) -> Help:
    """The help of a text. `name` is the command's, for messages. What follows the options and a blank line ends it."""
    whole, _, options = text.partition(OPTIONS)
    options, _, ending = options.partition("\n\n")
    about, *lines = f"{whole}{OPTIONS}{options}".splitlines() or [""]
    found = Help(about, ending=ending.splitlines())
    part: list[Item] | None = None
    for line in lines:
        head, item = HEAD.match(line), ITEM.match(line)
        if line.startswith("Usage: "):
            found.usage = line.removeprefix("Usage: ")
        elif head:
            part = found.parts.setdefault(head[1], [])
        elif item and part is not None:
            part.append(Item(item[1], item[2] or ""))
        elif line:
            raise UserError(f"the help of {name} has a line that was not looked for: {line}")
    return found


def said(program: Path, *words: str) -> str:
    done = subprocess.run([program, *words], check=False, capture_output=True, encoding="utf-8")
    if done.returncode:
        raise UserError(f"{program} {' '.join(words)} ended with status {done.returncode}")
    return done.stdout


def item_lines(items: Iterable[Item]) -> Iterator[str]:
    for name, text in items:
        yield from (".TP", roman(name), escaped(text))


def page_lines(program: Path) -> Iterator[str]:
    whole = help_of(said(program, "--help"), "rvstm")
    commands = [item.name for item in whole.parts["Commands"] if item.name != "help"]
    helps = {command: help_of(said(program, command, "--help"), f"rvstm {command}") for command in commands}
    yield f'.TH RVSTM 1 "" "{said(program, "--version").strip()}" "User Commands"'
    yield from (".SH NAME", rf"rvstm \- {NAME}", ".SH SYNOPSIS")
    for number, command in enumerate(commands):
        yield from ([".br"] if number else []) + [roman(helps[command].usage)]
    yield from (".br", roman("rvstm help [COMMAND]"), ".SH DESCRIPTION", f"{escaped(whole.about)}.", ".SH COMMANDS")
    for command in commands:
        yield from (f'.SS "rvstm {command}"', f"{escaped(helps[command].about)}.")
        for part in ("Arguments", "Options"):
            yield from item_lines(helps[command].parts.get(part, []))
        if helps[command].ending:
            yield from (".PP", ".nf", *map(escaped, helps[command].ending), ".fi")
    yield from (".SH OPTIONS", *item_lines(whole.parts["Options"]))


def page_of(program: Path) -> str:
    head = f'.\\" Made by {MAKER} of the help of rvstm: change that, and make the page again.\n'
    return head + "\n".join(page_lines(program)) + ENDING


def check(top: Path, program: Path) -> None:
    """The page of a checkout is the one that the help of the program makes."""
    page = top / PAGE
    if not page.is_file() or page.read_text(encoding="utf-8") != page_of(program):
        raise UserError(f"{PAGE} is not what the help of {program} makes: {MAKER} makes it again")
