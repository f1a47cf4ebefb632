"""The command line of docs/check."""

import argparse
import sys
from collections.abc import Callable, Iterable, Iterator, Sequence
from dataclasses import dataclass
from pathlib import Path

import refusals
from checks import book, book_page, calls, crates, definitions, layers, markdown, names, pages, reading, rule_calls, sources, unused, versions
from rvstm_tools import errors
from rvstm_tools.errors import MisuseError

DESCRIPTION = """\
Checks that the calls, clauses, files, links, commands and numbers of lines that the pages name are there, that docs/rule_calls.txt,
docs/crates.svg and the refusals of docs/messages.md agree with the sources, that crates.txt has each crate after those that it uses,
that each definition is written once and has a name of its own or a reason in docs/shared_names.txt, as each class of Python has, and
that all places say one version. Prints what is missing, the checksum of the sources of the program, and 'N names, M missing'. The status is 1 if something is
missing.

With an option it prints what is in the sources, and no page repeats it."""
EXAMPLE = """\
example:
  docs/check --reading stm_core::drive receipts store
  docs/check --book stm_core::drive receipts store --html book.html"""


@dataclass(frozen=True)
class Printer:
    """An option that prints lines of the sources, for the words after it."""

    option: str
    metavar: str
    count: str  # how many words come after it: any number (`*`), at least one (`+`), or none (empty)
    help: str
    lines: Callable[[Sequence[str]], Iterable[str]]


PRINTERS = (
    Printer("--calls", "CRATE", "*", "the public calls with their clauses, and what each does", calls.listed),
    Printer("--crates", "CRATE", "*", "the crates, and what each is for", crates.listed),
    Printer("--definitions", "CRATE", "*", "the files of definitions in reading order, and what each defines", definitions.listed),
    Printer("--lemmas", "CRATE", "*", "the crates whose lemmas each crate's proofs cite", crates.lemmas),
    Printer("--names", "CRATE", "*", "the names that several definitions, types, lemmas or classes have", names.listed),
    Printer("--unused", "CRATE", "*", "the public names, definitions and lemmas that nothing uses", unused.listed),
    Printer("--refusals", "", "", "what rvstm refuses, and when: the rows of docs/messages.md", lambda words: refusals.table_lines()),
    Printer(
        "--reading",
        "WORD",
        "+",
        "the files of definitions that clauses rest on, in reading order. WORDs are calls, each with the names of its clauses after "
        "it, or with none for all of them; `crate::` is all calls of a crate. After the word `after` come calls whose lists you have "
        "read: what they rest on is left out",
        reading.listed,
    ),
    Printer("--book", "WORD", "+", "these definitions themselves, whole", book.listed),
)
"""Each is one option. They are tried in this order."""


def parser() -> argparse.ArgumentParser:
    made = argparse.ArgumentParser("docs/check", description=DESCRIPTION, epilog=EXAMPLE, formatter_class=argparse.RawDescriptionHelpFormatter)
    choice = made.add_mutually_exclusive_group()
    for printer in PRINTERS:
        if printer.count:
            choice.add_argument(printer.option, metavar=printer.metavar, nargs=printer.count, help=printer.help)
        else:
            choice.add_argument(printer.option, action="store_const", const=[], help=printer.help)
    made.add_argument("--html", metavar="FILE", type=Path, help="with --book: writes it to FILE as a page with links")
    made.add_argument("--svg", metavar="FILE", type=Path, help="with --crates: writes FILE, a picture of all crates by layer")
    return made


def faults() -> Iterator[str]:
    yield from versions.wrong()
    yield from layers.misplaced()
    yield from layers.differences()
    yield from rule_calls.differences()
    yield from names.faults()
    yield from refusals.differences()
    for page in pages.page_files():
        yield from pages.faults_of(page, page.read_text(encoding="utf-8"), pages.options_of(parser()))
    yield from markdown.broken_links(sources.TOP / "CHANGELOG.md", (sources.TOP / "CHANGELOG.md").read_text(encoding="utf-8"))


def check() -> int:
    missing = list(faults())
    count = sum(pages.count_of_names(page.read_text(encoding="utf-8")) for page in pages.page_files())
    print(*missing, sep="\n", end="\n" if missing else "")
    print(versions.line_of_sources())
    print(f"{count} names, {len(missing)} missing")
    return errors.Status.FAILED if missing else errors.Status.DONE


def run(given: argparse.Namespace) -> int:
    if given.html and not given.book:
        raise MisuseError("--html goes with --book")
    if given.html:
        held = book.book_of(given.book)
        given.html.write_text(book_page.page_of(held), encoding="utf-8")
        print(f"{given.html}: {held.summary}")
        return errors.Status.DONE
    if given.svg and given.crates != []:
        raise MisuseError("--svg goes with --crates, without the name of a crate")
    if given.svg:
        given.svg.write_text(layers.svg(), encoding="utf-8")
        print(f"{given.svg}: {sources.counted(len(sources.crate_names()), 'crate')}")
        return errors.Status.DONE
    for printer in PRINTERS:
        words = getattr(given, printer.option.removeprefix("--"))
        if words is not None:
            print(*printer.lines(words), sep="\n")
            return errors.Status.DONE
    return check()


def main(words: Sequence[str] | None = None) -> int:
    errors.print_all_letters()
    given = parser().parse_args(sys.argv[1:] if words is None else words)
    return errors.ended("docs/check", lambda: run(given))
