"""Which definitions a clause cites, directly or through other definitions.

A citation is a name. A file's `use` lines say which names it takes from which file, and a definition cites those of them that its
text has, and the names of its own file. A type of the code is cited through `specs.declared`; it cites the types of its fields, or,
if its fields are private, what `ghost Value` says. A trait is cited if a clause asks a type parameter for one of its members.
"""

import enum
import functools
import re
from collections.abc import Callable, Iterable, Iterator, Mapping, Sequence
from dataclasses import dataclass
from pathlib import Path
from typing import TypeVar

from checks import sources
from checks.calls import PublicCall, split_types
from checks.definitions import GHOST_FIELD, Type, TypeKind, types
from checks.items import items

WORD = re.compile(r"(?:^|(?<=[\s(){}\[\];,λ]))[^\s(){}\[\];,.λ]+", re.M)
FIELD_NAME = re.compile(r"(?<=[{;])\s*\w+ = |^ +(?:pub )?[^\s({]+ : ", re.M)
MEMBER_OF = re.compile(r"(?<![\w.])(\w+)\.([^\s(){}\[\];,.]+)")
BIND = "◌>>=◌"  # what puts the steps of `do` together


class CitationPlace(enum.Enum):
    """Where a name is from."""

    DEFINITION = "definition"
    TYPE = "type"
    KIT = "kit"


@dataclass(frozen=True)
class Cited:
    """What a name refers to: a definition of a file below crates/, a type of a crate's code, or a name of the kit."""

    kind: CitationPlace
    place: str  # the file, the crate, or the module
    name: str

    @property
    def type(self) -> Type:
        return types(self.place)[self.name]


Item = TypeVar("Item")
Names = Mapping[str, frozenset[Cited]]  # what each name in a text refers to


def target(taken: sources.Taken) -> Cited | None:
    """What a name of a module refers to; None for what the prover makes and nobody reads."""
    parts = taken.module.split(".")
    if parts[0] != "Rattle" or not sources.is_crate(parts[1]):
        return None if "proofs" in parts else Cited(CitationPlace.KIT, taken.module, taken.name)
    if parts[2:4] == ["specs", "declared"]:
        held = [part for part in (*parts[4:], taken.name) if part in types(parts[1])]
        return Cited(CitationPlace.TYPE, parts[1], held[0]) if held else None
    file = f"{parts[1]}/specs/{parts[3]}.antt" if parts[2] == "specs" else ""
    if not (sources.CRATES / file).is_file():
        return None
    owner = items(file).owner.get(taken.name)
    return Cited(CitationPlace.DEFINITION, file, owner) if owner else None


def words_of(text: str) -> set[str]:
    """The words of a text that may be names of definitions: no field of a value, and no field that gets one."""
    return set(WORD.findall(FIELD_NAME.sub(" ", text)))


def parts_of_name(name: str) -> list[str]:
    """The words that a name has in a text: of `◌∷◌` the sign between its arguments."""
    return [part for part in name.split("◌") if part]


def is_in(name: str, words: set[str]) -> bool:
    """Whether a text of these words has a name."""
    if name == BIND and "←" in words:
        return True
    return name in words or ("◌" in name and all(part in words for part in parts_of_name(name)))


def taken_in(path: Path, text: str) -> dict[str, list[sources.Taken]]:
    """What the names in a text take, by the `use` lines of its file."""
    imports, words = sources.imports(path), words_of(text)
    found = {local: list(entries) for local, entries in imports.names.items() if is_in(local, words)}
    for alias, name in MEMBER_OF.findall(text):
        found[f"{alias}.{name}"] = [sources.Taken(module, name) for module in imports.modules.get(alias, [])]
    return found


def names_in(path: Path, text: str) -> dict[str, set[Cited]]:
    """What the names in a text refer to, by the `use` lines of its file."""
    return {name: {cited for entry in entries if (cited := target(entry))} for name, entries in taken_in(path, text).items()}


def cited_by_text(path: Path, text: str) -> set[Cited]:
    """What a text cites through the `use` lines of its file."""
    return {cited for found in names_in(path, text).values() for cited in found}


def code_names(path: Path, text: str) -> dict[str, Cited]:
    """The types of the code that a text names as the code does."""
    own, imported = sources.crate_of(path), sources.code_imports(path)
    found = dict[str, Cited]()
    for word in sorted(set(re.findall(r"\b[A-Z]\w*", text))):
        crate = imported.get(word, own)
        if sources.is_crate(crate) and word in types(crate):
            found[word] = Cited(CitationPlace.TYPE, crate, word)
    return found


def cited_by_type(cited: Cited) -> set[Cited]:
    held = cited.type
    if held.model:
        return cited_by_text(held.path, held.model["Value"])
    ghost = held.code if held.kind is TypeKind.TRAIT else " ".join(GHOST_FIELD.findall(held.code))
    fields = re.sub(r"^ *(?:pub )?ghost .*$", "", held.code, flags=re.M)
    return cited_by_text(held.path, ghost) | (set(code_names(held.path, fields).values()) - {cited})


def own_names(cited: Cited) -> dict[str, Cited]:
    held = items(cited.place)
    words = words_of(held.by_name[cited.name].code)
    return {name: Cited(CitationPlace.DEFINITION, cited.place, owner) for name, owner in held.owner.items() if owner != cited.name and is_in(name, words)}


@functools.cache
def citations(cited: Cited) -> frozenset[Cited]:
    if cited.kind is CitationPlace.DEFINITION:
        code = items(cited.place).by_name[cited.name].code
        return frozenset({*own_names(cited).values(), *cited_by_text(sources.CRATES / cited.place, code)})
    return frozenset(cited_by_type(cited)) if cited.kind is CitationPlace.TYPE else frozenset()


def closure(begin: Iterable[Item], used_by: Callable[[Item], Iterable[Item]]) -> set[Item]:
    """Some items, and all that they use in turn."""
    found = set(begin)
    left = list(found)
    while left:
        new = set(used_by(left.pop())) - found
        found |= new
        left += new
    return found


# ---- contracts


def arguments_of(text: str) -> Iterator[tuple[str, str]]:
    for part in split_types(text):
        name, _, of = part.partition(": ")
        yield name, of


def text_of_clauses(call: PublicCall, clauses: Sequence[str]) -> str:
    """The text of some clauses of a call, all of them if none is named, and of what it requires."""
    kept = (clause for clause in call.clauses if clause.kind == "requires" or not clauses or clause.name in clauses)
    return sources.without_comments(" ".join(clause.text for clause in kept))


def code_of_clauses(call: PublicCall, text: str) -> str:
    """The types of a call's arguments and of its result that a text of its clauses is about: those whose values it names, and the
    type of a refusal if it is about one."""
    words, code = set(re.findall(r"\w+", text)), text
    before, _, rest = sources.without_comments(call.signature).partition("(")
    for name, bounds in arguments_of(before.partition("<")[2]):
        code += f" {bounds}" if re.search(rf"\b{name}\.", text) else ""
    for name, of in arguments_of(rest):
        code += f" {of}" if name.removeprefix("mut ") in words else ""
    if "result" in words:
        answer = rest.partition("->")[2]
        code += " " + (answer if "Err" in text else re.sub(r"Result<(.*), [\w:]+>", r"\1", answer))
    if words & {"self", "Self"} or "Self" in code:
        code += f" {call.full_name}"
    return code


def cited_by_call(call: PublicCall, clauses: Sequence[str]) -> set[Cited]:
    """What some clauses of a call cite, and what the call requires; all clauses if none is named."""
    text = text_of_clauses(call, clauses)
    return cited_by_text(call.path, text) | set(code_names(call.path, code_of_clauses(call, text)).values())
