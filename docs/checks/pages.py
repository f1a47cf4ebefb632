"""What pages name: calls with clauses, files, numbers of lines, and commands. Each has to be there.

A call is named in backquotes as `crate::name`, or `crate::Type::name` if it belongs to a type, with clauses of it after it:
`crate::name` (`clause`, `clause`), (`crate::name`, `clause`), or (proved: `crate::name`, `clause`). A file is named in backquotes
with its ending or its folder, or in a block of code as a command or its argument. It is looked for at the top, in crates/, docs/,
sdk/, bench/, tests/, in each folder of examples/, and beside the page.
"""

import argparse
import re
from collections.abc import Iterable, Iterator
from dataclasses import dataclass
from pathlib import Path

from checks import markdown, reading, sources
from checks.calls import call_of
from rvstm_developers import commandline as developers
from rvstm_tools import commandline
from rvstm_tools.errors import UserError

CALL = re.compile(r"`(\w+(?:::\w+)+)`(?:\s+\(((?:`\w+`[,;]?\s*)+)\))?")
PROVED = re.compile(r"\((?:proved: |(?=`\w+::))([^()]*(?:\([^()]*\)[^()]*)*)\)")
QUOTED = re.compile(r"`([\w:]+)`")
ENDINGS = "antt|rt|md|c|s|S|h|ld|elf|block|schedule|expect|txt|rs|edit|list|py|functions"
FILE = re.compile(rf"`([\w.*-]+(?:/[\w.*-]+)*\.(?:{ENDINGS})|[\w.*-]+(?:/[\w.*-]+)+/?)`")
COMMAND = re.compile(r"^(?:\$ )?(?:cd )?((?:[\w.-]+/)+[\w.-]+)|(?<= )([\w-]+\.(?:schedule|s|c))(?=\s)", re.M)
TOOL = re.compile(r"(?:`|^ {4}(?:.*[ |/])?)rvstm-tools ([a-z][\w-]*)", re.M)
DEVELOPERS = re.compile(r"(?:`|^ {4}(?:.*[ |/])?)rvstm-developers ([a-z][\w-]*)", re.M)
CHECK = re.compile(r"^(?:\$ )?docs/check (?P<option>--[a-z]+)(?P<words>(?: +[\w:]+)*)", re.M)
QUOTED_CHECK = re.compile(r"`docs/check\s+(?P<option>--[a-z]+)(?P<words>(?:\s+[\w:]+)*)")
COUNTED = re.compile(r"docs/check\s+--reading\s+([\w:\s]+?)(?:`\s+lists|\s+#)\s+([\d,]+)\s+lines(?:\s+in\s+([\d,]+)\s+files)?")
FIELD = re.compile(r"ghost field `(\w+)` of\s+`\w+` in `([\w/.]+)`")
COUNT = re.compile(r"^\| ([\d,]+)(?: of ([\d,]+))? \| (?:`([\w/]+\.\w+)`|together[^|]*) \|", re.M)
FOLDERS = ("", "crates", "docs", "sdk", "bench", "tests")


@dataclass(frozen=True)
class NamedCall:
    call: str
    clauses: tuple[str, ...]


def named_calls(text: str) -> Iterator[NamedCall]:
    for path, clauses in CALL.findall(text):
        yield NamedCall(path, tuple(re.findall(r"`(\w+)`", clauses)))
    for proved in PROVED.findall(text):
        call, clauses = "", list[str]()
        for word in [*QUOTED.findall(proved), "::"]:
            if "::" not in word:
                clauses.append(word)
                continue
            if call:
                yield NamedCall(call, tuple(clauses))
            call, clauses = word, []


def missing_calls(page: str, text: str) -> Iterator[str]:
    for named in dict.fromkeys(named_calls(text)):
        call = call_of(named.call)
        if not call:
            yield f"{page}: there is no public {named.call}"
            continue
        for clause in named.clauses:
            if clause not in call.clause_names:
                yield f"{page}: {named.call} has no clause {clause}"


def is_file(name: str, page: Path) -> bool:
    """Whether a file of the name is in one of the folders that pages speak of."""
    folders = [page.parent, *(sources.TOP / folder for folder in FOLDERS), *(sources.TOP / "examples").iterdir()]
    return any(any(folder.glob(name)) for folder in folders if folder.is_dir())


def named_files(text: str) -> list[str]:
    """The files that a page names, in its text and as commands."""
    code = "\n".join(line.text for line in markdown.lines_of(text) if line.is_command) + "\n"
    commands = [first or second for first, second in COMMAND.findall(code)]
    return FILE.findall(text) + [re.sub(r"^(?:\.\./)+", "", command) for command in commands]


def missing_files(page: Path, text: str) -> Iterator[str]:
    """The files that a page names and that are not there. What is built is not looked for."""
    for name in dict.fromkeys(named_files(text)):
        if "/out/" not in f"/{name}/" and not is_file(name, page):
            yield f"{page.name}: there is no {name}"
    for field, name in FIELD.findall(text):
        if f"ghost {field}:" not in sources.text_of(sources.CRATES / name):
            yield f"{page.name}: {name} has no ghost field {field}"


def wrong_commands(page: str, text: str, options: Iterable[str]) -> Iterator[str]:
    """The commands of rvstm-tools, of rvstm-developers and of docs/check that a page names and that are not there."""
    for name in TOOL.findall(text):
        if name not in commandline.NAMES:
            yield f"{page}: rvstm-tools has no command {name}"
    for name in DEVELOPERS.findall(text):
        if name not in developers.modules():
            yield f"{page}: rvstm-developers has no command {name}"
    code = "\n".join(line.text for line in markdown.lines_of(text) if line.is_command)
    for option, words in CHECK.findall(code) + QUOTED_CHECK.findall(text):
        if option not in options:
            yield f"{page}: docs/check has no option {option}"
        elif option in ("--reading", "--book") and "::" in words:
            try:
                reading.reading_of(words.split())
            except UserError as error:
                yield f"{page}: docs/check {option}{words}: {error}"


# ---- numbers


def number_of(text: str) -> int:
    """A number of a page, such as 1,174."""
    return int(text.replace(",", ""))


def wrong_counts(page: str, text: str) -> Iterator[str]:
    """The numbers of lines that a page has wrong: of files, of the rows of a table together, and of --reading."""
    together = 0
    for number, whole, name in COUNT.findall(text):
        if not name:
            if number_of(number) != together:
                yield f"{page}: the lines together are {together}, not {number}"
            together = 0
            continue
        together += number_of(number)
        path = sources.CRATES / name
        lines = len(sources.lines_of(name)) if path.is_file() else 0
        if lines != number_of(whole or number):
            yield f"{page}: {name} has {lines} lines, not {whole or number}"
    for words, lines_said, files_said in COUNTED.findall(text):
        try:
            held = reading.reading_of(words.split())
        except UserError:
            continue  # reported with the commands
        came, said = f"{held.lines:,} lines", f"{lines_said} lines"
        if files_said:
            came, said = f"{came} in {len(held.rows):,} files", f"{said} in {files_said} files"
        if came != said:
            yield f"{page}: --reading {' '.join(words.split())} lists {came}, not {said}"


# ---- all pages


def page_files() -> list[Path]:
    """The pages: README.md, CONTRIBUTING.md, those of docs/ and bench/, and those beside examples."""
    folders = [sources.TOP / "docs", sources.TOP / "bench", *sorted((sources.TOP / "examples").iterdir())]
    pages = [page for folder in folders if folder.is_dir() for page in sorted(folder.glob("*.md"))]
    return [sources.TOP / "README.md", sources.TOP / "CONTRIBUTING.md", *pages]


def count_of_names(text: str) -> int:
    return len(named_files(text)) + sum(1 + len(named.clauses) for named in named_calls(text))


def faults_of(page: Path, text: str, options: Iterable[str]) -> Iterator[str]:
    yield from missing_calls(page.name, text)
    yield from missing_files(page, text)
    yield from wrong_counts(page.name, text)
    yield from markdown.broken_links(page, text)
    yield from wrong_commands(page.name, text, options)


def options_of(parser: argparse.ArgumentParser) -> list[str]:
    return [option for action in parser._actions for option in action.option_strings]
