"""Public names of code, definitions and lemmas that nothing uses.

A text uses a definition or a lemma if it has its name, and is in the same file or takes the name by a `use` line. Contracts reach what
they use, and what that uses in turn. Proofs also reach what answers of goals and `#[tactic(.. using(..))]` use. Fields of records are
not looked at.
"""

import enum
import functools
import re
from collections import Counter
from collections.abc import Iterator, Sequence
from dataclasses import dataclass
from pathlib import Path

from checks import calls, citations, items, pages, public_names, rule_calls, sources
from checks.calls import PublicCall
from checks.reasons import reasons

LIST = "docs/unused_names.txt"
"""The names that stay though nothing uses them, each with its reason."""
TACTIC = re.compile(r"\b(\w+)::proofs::([\w:]+)::([^\s:,()]+)")


class UnusedKind(enum.Enum):
    """How something is unused."""

    OWN = "public, and only its crate uses it"
    NOBODY = "public, and nothing uses it"
    BOTH = "public, and only its crate and tests use it"
    TESTS = "public, and only tests use it"
    UNCITED = "a law that no page cites"
    PROOFS = "a definition that only proofs reach"
    NOTHING = "a definition that nothing reaches"
    LEMMA = "a lemma that nothing reaches"


@dataclass(frozen=True)
class Unused:
    kind: UnusedKind
    name: str
    """`crate::Type::name` for code, `crate/proofs/File.antt name` for definitions and lemmas."""
    where: str
    """Its line, with the file if the name does not say it."""


@dataclass(frozen=True)
class ItemPlace:
    """A definition or a lemma."""

    file: str
    name: str


# ---- definitions and lemmas


def place_of(taken: sources.Taken) -> ItemPlace | None:
    """What a name of a module refers to; None if it is in the kit, or the prover makes it."""
    root, *parts = taken.module.split(".")
    file = "/".join(parts) + ".antt"
    if root != "Rattle" or parts[1:2] not in (["specs"], ["proofs"]) or not (sources.CRATES / file).is_file():
        return None
    owner = items.items(file).owner.get(taken.name)
    if owner:
        return ItemPlace(file, owner)
    passed = sources.imports(sources.CRATES / file).names.get(taken.name, [])
    return next((place for entry in passed if (place := place_of(entry))), None)


def used_by_text(path: Path, text: str) -> set[ItemPlace]:
    """What a text uses through the `use` lines of its file."""
    taken = (entry for entries in citations.taken_in(path, text).values() for entry in entries)
    return {place for entry in taken if (place := place_of(entry))}


@functools.cache
def used_by(place: ItemPlace) -> set[ItemPlace]:
    held = items.items(place.file)
    code = held.by_name[place.name].code
    words = citations.words_of(code)
    own = {ItemPlace(place.file, owner) for name, owner in held.owner.items() if citations.is_in(name, words)}
    return own | used_by_text(sources.CRATES / place.file, code)


def code_files() -> Iterator[Path]:
    yield from (path for crate in sources.crate_names() for path in sources.files_of(crate) if path.suffix == ".rt")


def places(crate: str, folder: str) -> Iterator[ItemPlace]:
    """The definitions and lemmas in a folder of a crate."""
    files = [sources.shown(path) for path in sources.files_of(crate) if path.suffix == ".antt"]
    yield from (ItemPlace(file, name) for file in files if file.startswith(f"{crate}/{folder}/") for name in items.items(file).by_name)


@functools.cache
def by_contracts() -> frozenset[ItemPlace]:
    """What the contracts reach."""
    return frozenset(citations.closure((place for path in code_files() for place in used_by_text(path, sources.code_of(path))), used_by))


@functools.cache
def by_proofs() -> frozenset[ItemPlace]:
    """What the contracts, the answers of goals and the tactics reach."""
    found = set(by_contracts())
    for path in code_files():
        for crate, module, name in TACTIC.findall(sources.text_of(path)):
            own = sources.crate_of(path) if crate == "crate" else crate
            place = place_of(sources.Taken(f"Rattle.{own}.proofs.{module.replace('::', '.')}", name))
            found |= {place} if place else set()
    answers = (place for crate in sources.crate_names() for place in places(crate, "proofs"))
    found |= {place for place in answers if items.items(place.file).by_name[place.name].is_answer}
    return frozenset(citations.closure(found, used_by))


def unused_places(crate: str) -> Iterator[Unused]:
    for place in (*places(crate, "specs"), *places(crate, "proofs")):
        where, is_definition = str(items.items(place.file).by_name[place.name].line), "/specs/" in place.file
        if place not in by_proofs():
            yield Unused(UnusedKind.NOTHING if is_definition else UnusedKind.LEMMA, f"{place.file} {place.name}", where)
        elif is_definition and place not in by_contracts():
            yield Unused(UnusedKind.PROOFS, f"{place.file} {place.name}", where)


# ---- public names


@functools.cache
def cited_by_pages() -> frozenset[str]:
    return frozenset(name for page in pages.page_files() for name, _ in pages.CALL.findall(page.read_text(encoding="utf-8")))


def is_law(call: PublicCall) -> bool:
    """Whether only its clauses count, since it changes nothing and returns nothing."""
    return call.is_function and not re.search(r"->|&mut|\bself\b", call.signature)


def kind_of(call: PublicCall) -> UnusedKind | None:
    """How a public name is unused; None if it is used."""
    rules = rule_calls.listed((sources.TOP / "docs/rule_calls.txt").read_text(encoding="utf-8"))
    if call.full_name in public_names.used(False) or call.full_name in rules or (is_law(call) and call.full_name in cited_by_pages()):
        return None
    if public_names.is_used_in_crate(call):
        return UnusedKind.BOTH if call.full_name in public_names.used(True) else UnusedKind.OWN
    if call.full_name in public_names.used(True):
        return UnusedKind.TESTS
    return UnusedKind.UNCITED if is_law(call) else UnusedKind.NOBODY


def unused_names(crate: str) -> Iterator[Unused]:
    for call in public_names.public(crate).values():
        if kind := kind_of(call):
            cited = ", which a page names" if call.full_name in cited_by_pages() else ""
            yield Unused(kind, call.full_name, f"{sources.shown(call.path)}:{call.line}{cited}")


# ---- what --unused prints


def listed(crates: Sequence[str]) -> Iterator[str]:
    """The lines that --unused prints: the unused names by crate and kind, how many there are, and the exceptions that are used."""
    spared, counts, seen = reasons(LIST), Counter[UnusedKind](), set[str]()
    for crate in calls.chosen_crates(crates):
        found = [*unused_names(crate), *unused_places(crate)]
        seen.update(entry.name for entry in found)
        left = [entry for entry in found if entry.name not in spared]
        yield from [crate] if left else []
        for kind in UnusedKind:
            rows = [f"    {entry.name}  {entry.where}" for entry in left if entry.kind is kind]
            counts[kind] += len(rows)
            yield from [f"  {kind.value}:", *rows] if rows else []
    yield from (f"{counts[kind]:5} {kind.value}" for kind in UnusedKind)
    if not crates:
        yield from (f"{LIST}: {name} is used, or is not there" for name in spared if name not in seen)
