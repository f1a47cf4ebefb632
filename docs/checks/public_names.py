"""Which public names of the code other crates use, and which of them only tests.

A crate uses a name of another one by its path or through a `use` line, in code, contracts, definitions or proofs. It uses a method by
`.method(` if the crate of the method is among its libraries: of several methods with that name all count, since types are not worked
out. A type is used if a used name shows it, in its arguments, its result or a public field.
"""

import functools
import re
from collections.abc import Iterable, Iterator, Mapping, Sequence
from pathlib import Path

from checks import calls, citations, definitions, sources
from checks.calls import PublicCall
from checks.definitions import TypeKind

TURBOFISH = re.compile(r"::<(?:[^<>]|<(?:[^<>]|<[^<>]*>)*>)*>")
PATH = re.compile(r"(?<![\w:.])(\w+)((?:::\w+)*)")
ALIAS = re.compile(r"\btype \w+ = (\w+)")
METHOD = re.compile(r"\.\s*(\w+)\(")
GIVEN = re.compile(r"^impl[^{]*? for (\w+)[^{]*\{\n(.*?)^\}", re.M | re.S)


@functools.cache
def public(crate: str) -> Mapping[str, PublicCall]:
    """The public functions, types, constants and traits of a crate. What a trait asks of types belongs to it."""
    if crate not in sources.libraries():
        return {}
    known = calls.calls_of(crate).items()
    return {name: call for name, call in known if sources.text_of(call.path).splitlines()[call.line - 1].lstrip().startswith("pub ")}


def is_of_tests(path: Path) -> bool:
    return sources.crate_of(path).endswith("_tests") or "tests" in path.parts or path.name == "tests.rt"


def names_of_path(parts: Sequence[str]) -> Iterator[str]:
    """The public names that a path goes through: of `low::Boxed::doubled` both `low::Boxed` and `low::Boxed::doubled`. If the type is
    another name of a type of its crate, those of that type, too."""
    crate, *names = parts
    for end in range(1, len(names) + 1):
        yield from (f"{crate}::{name}" for name in {"::".join(names[:end]), "::".join(names[1:end])} if name in public(crate))
    held = definitions.types(crate).get(names[0]) if names else None
    if held and (found := ALIAS.search(held.code)):
        yield from names_of_path([crate, found[1], *names[1:]])


def named_by_code(path: Path) -> Iterator[str]:
    """The public names that a file of code has, by their paths or through its `use` lines."""
    own, text = sources.crate_of(path), TURBOFISH.sub("", sources.code_of(path))
    local = {"crate": [own]}
    for use in sources.code_uses(path):
        parts = [own if part == "crate" else part for part in use.path.split("::")]
        if use.local == "*":
            local |= {name: [*parts[:-1], name] for name in public(parts[0])}
        elif use.is_shown:
            yield from names_of_path(parts)
        local[use.local] = parts
    for first, rest in set(PATH.findall(text)):
        yield from names_of_path([*local.get(first, [first]), *rest.split("::")[1:]])


def methods_called(path: Path) -> Iterator[str]:
    """The methods that a file of code may call, of all types of its libraries."""
    crate, words = sources.crate_of(path), set(METHOD.findall(TURBOFISH.sub("", sources.code_of(path))))
    for library in (*sources.libraries()[crate], crate):
        yield from (f"{library}::{name}" for name in public(library) if "::" in name and name.rpartition("::")[2] in words)


def named_by_proofs(path: Path) -> Iterator[str]:
    """The types and constants of code that a file of proofs or a contract takes."""
    for entries in citations.taken_in(path, sources.code_of(path)).values():
        for parts in ((*taken.module.split("."), taken.name) for taken in entries):
            if parts[0] == "Rattle" and parts[2:4] in (("specs", "declared"), ("specs", "contracts")):
                yield from (f"{parts[1]}::{part}" for part in parts[4:] if part in public(parts[1]))


@functools.cache
def shown_by(full_name: str) -> frozenset[str]:
    """The public types of its crate that a public name shows."""
    crate, _, name = full_name.partition("::")
    call = public(crate)[name]
    held = definitions.types(crate).get(name)
    text = sources.without_comments(call.signature)
    if held:
        fields = [line for line in held.code.splitlines() if held.kind is not TypeKind.STRUCT or line.startswith("    pub ")]
        given = "".join(block for of, block in GIVEN.findall(sources.text_of(held.path)) if of == name)
        text = "\n".join([*fields, *held.model.values(), *re.findall(r"^ +type .*", given, re.M)])
    return frozenset(f"{crate}::{word}" for word in re.findall(r"\b[A-Z]\w*", text) if word in public(crate))


def counted(path: Path, names: Iterable[str]) -> set[str]:
    """The names that a file uses. Those of its own crate count only if it is a test."""
    return {name for name in names if is_of_tests(path) or not name.startswith(f"{sources.crate_of(path)}::")}


@functools.cache
def used(with_tests: bool) -> frozenset[str]:
    """The public names that other crates or C use, and, if asked for, tests."""
    found = {call.full_name for crate in sources.crate_names() for call in public(crate).values() if 'extern "C"' in call.head}
    methods = set[str]()
    for path in (path for crate in sources.crate_names() for path in sources.files_of(crate)):
        if with_tests or not is_of_tests(path):
            found |= counted(path, named_by_proofs(path))
            found |= counted(path, named_by_code(path) if path.suffix == ".rt" else ())
            methods |= counted(path, methods_called(path) if path.suffix == ".rt" else ())
    before = set[str]()
    while found != before:
        before = set(found)
        found.update(name for name in methods if name.rpartition("::")[0] in before)
        found.update(shown for name in before for shown in shown_by(name))
    return frozenset(found)


def is_used_in_crate(call: PublicCall) -> bool:
    """Whether the code of its own crate says a public name outside its declaration and the head of an `impl`."""
    owner, _, last = call.name.rpartition("::")
    elsewhere = rf"^(?!impl|pub .*\b(?:fn|struct|enum|trait|type|const) {last}\b).*\b{last}\b"
    said = re.compile(rf"\.\s*{last}\(|::{last}\b" if owner[:1].isupper() else elsewhere, re.M)
    return any(said.search(TURBOFISH.sub("", sources.code_of(path))) for path in sources.source_files(call.crate))
