"""Which files of definitions to read, and in which order, to believe some clauses.

A file is on a list for the definitions that are cited, and for no others.
"""

import functools
import re
import shutil
from collections.abc import Iterable, Iterator, Sequence
from dataclasses import dataclass
from pathlib import Path

from checks import calls, sources
from checks.calls import PublicCall
from checks.citations import CitationPlace, Cited, citations, cited_by_call, closure
from checks.definitions import Type, places
from rvstm_tools.errors import MisuseError

AFTER = "after"  # the word after which calls are named whose lists were read before
CORE = ("core", "std_alloc", "std_collections", "std_io")  # the folders of the kit that `std` passes names on from


@dataclass
class AskedCall:
    """A call that a list is asked for, with the clauses that count; all of them if none is named."""

    call: PublicCall
    clauses: list[str]

    @property
    def named(self) -> list[str]:
        return self.clauses or self.call.clause_names


@dataclass(frozen=True)
class ReadingRow:
    file: str
    read: int  # how many of its lines to read: those of definitions that are not cited are left out
    lines: int  # how many lines it has
    cited: tuple[str, ...]
    rest: tuple[str, ...]  # the names of its definitions: those that are cited, and the others


@dataclass(frozen=True)
class Module:
    library: str
    name: str


# ---- what is asked for


def asked_for(words: Sequence[str]) -> list[AskedCall]:
    """The calls that words name, each with the clauses that are named after it. `crate::` names all calls of a crate that have a
    clause."""
    found = list[AskedCall]()
    for word in words:
        crate, colons, name = word.partition("::")
        known = calls.calls_of(crate) if crate in sources.crate_names() else {}
        if colons and not name and known:
            found += [AskedCall(call, []) for call in known.values() if call.clauses]
        elif colons and name in known:
            found.append(AskedCall(known[name], []))
        elif not colons and found and word in [clause.name for clause in found[-1].call.clauses]:
            found[-1].clauses.append(word)
        else:
            raise MisuseError(f"there is no public call and no clause {word}")
    return found


def cited_by(asked: Iterable[AskedCall]) -> set[Cited]:
    return closure((cited for entry in asked for cited in cited_by_call(entry.call, entry.clauses)), citations)


@dataclass(frozen=True)
class Reading:
    asked: list[AskedCall]
    cited: set[Cited]  # the definitions and types, and the names of the kit, without what was read before
    before: set[Cited]

    @functools.cached_property
    def rows(self) -> list[ReadingRow]:
        """The files to read, each after those that it uses."""
        return [row_of(file, self.cited) for file in in_order(self.cited)]

    @functools.cached_property
    def types(self) -> list[Type]:
        """The types and traits of the code that are named, lowest crate first."""
        found = [cited.type for cited in self.cited if cited.kind is CitationPlace.TYPE]
        return sorted(found, key=lambda held: (sources.crate_names().index(held.crate), held.path, held.line))

    @functools.cached_property
    def modules(self) -> list[Module]:
        """The modules of the kit that a name comes from, without those that were read before."""
        new = {module_of(cited) for cited in self.cited if cited.kind is CitationPlace.KIT}
        old = {module_of(cited) for cited in self.before if cited.kind is CitationPlace.KIT}
        return sorted(new - old, key=lambda module: (module.library != "std", module.library, module.name))

    @property
    def lines(self) -> int:
        """How many lines of definitions to read."""
        return sum(row.read for row in self.rows)


def reading_of(words: Sequence[str]) -> Reading:
    """What words ask for: calls and clauses, and after the word `after` calls whose lists were read before."""
    begin, _, rest = " ".join(words).partition(f" {AFTER} ")
    asked = asked_for(begin.split())
    found, before = cited_by(asked), cited_by(asked_for(rest.split()))
    return Reading(asked, found - before, before)


# ---- the order, and the lines


@functools.cache
def files_below(cited: Cited) -> frozenset[str]:
    """The files of definitions that a definition or a type cites, itself or through types."""
    found, seen, left = set[str](), {cited}, [cited]
    while left:
        for other in citations(left.pop()) - seen:
            seen.add(other)
            if other.kind is CitationPlace.DEFINITION:
                found.add(other.place)
            elif other.kind is CitationPlace.TYPE:
                left.append(other)
    return frozenset(found)


def in_order(found: Iterable[Cited]) -> list[str]:
    """The files of some definitions, each after those that it uses; of several the one in the lowest crate first."""
    held = [cited for cited in found if cited.kind is CitationPlace.DEFINITION]
    files = {cited.place for cited in held}
    below = {file: set[str]() for file in files}
    for cited in held:
        below[cited.place] |= (files_below(cited) & files) - {cited.place}
    order, left = list[str](), set(files)
    while left:
        free = [file for file in left if not below[file] & left] or list(left)
        order.append(min(free, key=lambda file: (sources.crate_names().index(file.split("/")[0]), file)))
        left.remove(order[-1])
    return order


def lines_left_out(file: str, names: Iterable[str]) -> int:
    """How many lines some definitions of a file have, each with the empty line after it."""
    lines, left_out = sources.lines_of(file), set[int]()
    for held in [places(file)[name] for name in names]:
        left_out |= {*held, held.stop if held.stop < len(lines) and not lines[held.stop] else held.start}
    return len(left_out)


def row_of(file: str, found: set[Cited]) -> ReadingRow:
    names = list(places(file))
    cited = tuple(name for name in names if Cited(CitationPlace.DEFINITION, file, name) in found)
    rest = tuple(name for name in names if name not in cited)
    lines = len(sources.lines_of(file))
    return ReadingRow(file, lines - lines_left_out(file, rest), lines, cited, rest)


# ---- the kit


def module_of(cited: Cited) -> Module:
    library, specs, name = cited.place.removeprefix("Rattle.").removesuffix(".TheVariants").partition(".specs.")
    return Module(library, name) if specs else Module(*cited.place.split(".", 1))


def kit_file(module: Module) -> Path | None:
    """Where a module of the kit is, if its `rt` is on the path; a type of its code has no such file."""
    rt = shutil.which("rt")
    if not rt:
        return None
    kit = Path(rt).resolve().parent.parent / "rattle"
    folders = [module.library, *CORE] if module.library == "std" else [module.library]
    paths = [kit / folder / "specs" / f"{module.name.replace('.', '/')}.antt" for folder in folders]
    return next((path for path in paths if path.is_file()), None)


def kit_line(modules: Sequence[Module]) -> str:
    """A line of modules of the kit; empty if there are none."""
    parts = dict[str, list[str]]()
    for module in modules:
        parts.setdefault(module.library, []).append(re.sub(r"^declared\.", "", module.name))
    return f"Of the kit: {'; '.join(f'`{library}` ' + ', '.join(held) for library, held in parts.items())}." if parts else ""


# ---- what --reading prints


def which(row: ReadingRow) -> str:
    """Which definitions of a file count, in the fewest words; empty if all do."""
    named = f"only {', '.join(f'`{name}`' for name in row.cited)}"
    spared = f"without {', '.join(f'`{name}`' for name in row.rest)}"
    return min(named, spared, key=len) if row.rest else ""


def table(held: Reading) -> Iterator[str]:
    yield from ["| lines | file | of it |", "|---|---|---|"]
    for row in held.rows:
        yield f"| {row.read:,}{'' if row.read == row.lines else f' of {row.lines:,}'} | `{row.file}` | {which(row)} |"
    yield f"| {held.lines:,} | together, in {sources.counted(len(held.rows), 'file')} | |"


def types_table(held: Reading) -> Iterator[str]:
    yield from ["| type of the code | file | line |", "|---|---|---|"]
    for entry in held.types:
        yield f"| {entry.kind.value} `{entry.name}` | `{sources.shown(entry.path)}` | {entry.line} |"


def listed(words: Sequence[str]) -> Iterator[str]:
    held = reading_of(words)
    for asked in held.asked:
        clauses = f" ({', '.join(f'`{name}`' for name in asked.named)})" if asked.named else ""
        yield f"`{asked.call.full_name}`{clauses}, in `{sources.shown(asked.call.path)}`"
    yield from ["", *table(held), ""]
    if held.modules:
        files = [path for module in held.modules if (path := kit_file(module))]
        yield from [kit_line(held.modules), "", *(f"    {path}" for path in files), ""]
    yield from types_table(held)
