"""A book for auditors: the definitions that clauses rest on, whole, in reading order, with the types of the code and the names of
the kit. docs/auditing.md says how to read it."""

import textwrap
from collections.abc import Iterator, Sequence
from dataclasses import dataclass

from checks import definitions, reading, sources
from checks.citations import CitationPlace, Cited
from checks.definitions import Type
from checks.reading import AskedCall, Module, Reading, ReadingRow

WIDTH = 100
SEEN = {
    "Value": "what a clause sees of it (ghost Value)",
    "view": "how its private fields make this up (ghost view)",
    "invariant": "what its values always keep (ghost invariant)",
}
"""What is declared of a type whose fields are private, in words."""
LEFT_OUT = "left out, since no clause of this book cites it: "


@dataclass(frozen=True)
class BookEntry:
    """A definition of a book, with the comment and the `infix` lines above it."""

    cited: Cited
    text: str


@dataclass(frozen=True)
class Names:
    """The names that a book takes from a module of the kit."""

    module: Module
    names: tuple[str, ...]


@dataclass(frozen=True)
class Book:
    reading: Reading

    @property
    def title(self) -> str:
        """The calls that the book is about, each with its clauses."""
        return "; ".join(title_of(asked) for asked in self.reading.asked)

    @property
    def summary(self) -> str:
        held = self.reading
        parts = ((held.lines, "line of definitions"), (len(held.rows), "file"), (len(held.types), "type of the code"), (len(held.modules), "module of the kit"))
        lines, files, types, modules = (sources.counted(number, name) for number, name in parts)
        return f"{lines} in {files}, {types}, {modules}"

    @property
    def kit(self) -> list[Names]:
        """The names of the kit that the book has."""
        found = dict[Module, set[str]]()
        for cited in self.reading.cited:
            if cited.kind is CitationPlace.KIT:
                found.setdefault(reading.module_of(cited), set()).add(cited.name)
        return [Names(module, tuple(sorted(found[module]))) for module in self.reading.modules]


def book_of(words: Sequence[str]) -> Book:
    return Book(reading.reading_of(words))


def title_of(asked: AskedCall) -> str:
    return asked.call.full_name + (f" ({', '.join(asked.named)})" if asked.named else "")


def contract_of(asked: AskedCall) -> str:
    """The comment, the arguments and the clauses of a call that a book is about, as its source has them."""
    call = asked.call
    kept = [clause for clause in call.clauses if clause.kind == "requires" or not asked.clauses or clause.name in asked.clauses]
    lines = [f"/// {line}".rstrip() for line in call.comment] + call.signature.rstrip().splitlines()
    for clause in kept:
        name = f" {clause.name}" if clause.name else ""
        lines.append(f"    {clause.kind}{name} {{{clause.text}}}")
    return textwrap.dedent("\n".join(lines))


def entries_of(row: ReadingRow) -> list[BookEntry]:
    """The definitions of a file that a book has, in the order of the file."""
    lines, held = sources.lines_of(row.file), definitions.places(row.file)
    return [BookEntry(Cited(CitationPlace.DEFINITION, row.file, name), "\n".join(lines[at] for at in held[name])) for name in row.cited]


def seen_of(held: Type) -> Iterator[tuple[str, str]]:
    """What is declared of a type whose fields are private: what it is, and its text."""
    for name, words in SEEN.items():
        if name in held.model:
            yield words, held.model[name].strip()


# ---- as text


def heading(text: str, line: str = "-") -> list[str]:
    return ["", "", text, line * min(len(text), WIDTH), ""]


def filled(text: str) -> list[str]:
    return textwrap.wrap(text, WIDTH, break_long_words=False, break_on_hyphens=False)


def file_lines(number: int, row: ReadingRow) -> Iterator[str]:
    yield from heading(f"{number}  {row.file}, {row.read} of {row.lines} lines")
    yield from [f"-- {line}".rstrip() for line in definitions.head_comment(row.file)]
    for entry in entries_of(row):
        yield from ["", *entry.text.splitlines()]
    yield from ["", *filled(LEFT_OUT + ", ".join(row.rest))] if row.rest else []


def type_lines(held: Type) -> Iterator[str]:
    yield from ["", f"{held.kind.value} {held.name}, {sources.shown(held.path)}:{held.line}"]
    yield from [f"    {line}" for line in [*(f"/// {line}" for line in held.comment), *held.text.splitlines()]]
    yield from [f"    {words}: {text}" for words, text in seen_of(held)]


def kit_lines(names: Names) -> Iterator[str]:
    file = reading.kit_file(names.module)
    yield from ["", f"{names.module.library} {names.module.name}" + (f", {file}" if file else "")]
    yield from [f"    {line}" for line in filled(", ".join(names.names))]


def listed(words: Sequence[str]) -> Iterator[str]:
    book = book_of(words)
    held = book.reading
    yield from [book.title, "=" * min(len(book.title), WIDTH), "", book.summary]
    for asked in held.asked:
        yield from heading(f"{asked.call.full_name}, {sources.shown(asked.call.path)}:{asked.call.line}")
        yield from contract_of(asked).splitlines()
    for number, row in enumerate(held.rows, 1):
        yield from file_lines(number, row)
    yield from heading("Types of the code")[:-1] if held.types else []
    for entry in held.types:
        yield from type_lines(entry)
    yield from heading("Of the kit")[:-1] if held.modules else []
    for names in book.kit:
        yield from kit_lines(names)
