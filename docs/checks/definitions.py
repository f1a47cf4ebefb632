"""The definitions of the files in specs/, and the types of the code, each with its text."""

import enum
import functools
import re
from collections.abc import Iterator, Sequence
from dataclasses import dataclass
from pathlib import Path

from checks import calls, items, sources

TYPE = re.compile(r"^(?:pub(?:\(\w+\))? )?(struct|enum|trait|type) (\w+)")
GHOST = re.compile(r"^ *ghost (Value|view|invariant) = \{(.*)\};$", re.M)
GHOST_FIELD = re.compile(r"^ *(?:pub )?ghost \w+: \{(.*?)\}(?: by \{.*\})?,$", re.M)


class TypeKind(enum.Enum):
    """What keyword declares a type of the code."""

    STRUCT = "struct"
    ENUM = "enum"
    TRAIT = "trait"
    ALIAS = "type"


@dataclass(frozen=True)
class Type:
    """A type or a trait of a crate's code."""

    crate: str
    name: str
    kind: TypeKind
    path: Path
    line: int  # the line of its keyword, from 1
    text: str  # its declaration, with the comments in it

    @property
    def code(self) -> str:
        return sources.without_comments(self.text)

    @functools.cached_property
    def model(self) -> dict[str, str]:
        """What is declared of a type whose fields are private: `Value` is what a clause sees of it, `view` how the fields make that
        up, and `invariant` what its values keep. Empty if clauses see the fields."""
        block = re.search(rf"^impl(?:<[^{{]*?>)? Model for {self.name}\b.*?^\}}", sources.text_of(self.path), re.M | re.S)
        found = dict(GHOST.findall(block[0])) if block else {}
        return found if "Value" in found else {}

    @functools.cached_property
    def comment(self) -> list[str]:
        comment: list[str] = []
        for line in sources.text_of(self.path).splitlines()[: self.line - 1]:
            comment = calls.comment_after(comment, line)
        return comment


@functools.cache
def places(file: str) -> dict[str, range]:
    """The lines of each definition of a file, from 0, with the comment and the `infix` lines above it."""
    lines, held = sources.lines_of(file), items.items(file).by_name
    starts = [start_of(lines, item.line - 1) for item in held.values()]
    found = dict[str, range]()
    for name, start, end in zip(held, starts, starts[1:] + [len(lines)], strict=True):
        while not lines[end - 1].strip() or lines[end - 1].startswith("--"):
            end -= 1
        found[name] = range(start, end)
    return found


def start_of(lines: Sequence[str], head: int) -> int:
    """The first line of what belongs to the definition whose own first line is `head`."""
    while head and re.match(r"infix|--(?! ----)", lines[head - 1]):
        head -= 1
    return head


def head_comment(file: str) -> list[str]:
    found = list[str]()
    for line in sources.lines_of(file):
        if not line.startswith("--"):
            break
        found.append(line.removeprefix("--").strip())
    return found


@functools.cache
def types(crate: str) -> dict[str, Type]:
    found = dict[str, Type]()
    for path in sources.source_files(crate):
        lines = sources.text_of(path).splitlines()
        for number, line in enumerate(lines):
            if match := TYPE.match(line):
                last = number
                while not re.match(r"\}|.*(?:;|\{\})$", lines[last]) or (last > number and lines[last].startswith(" ")):
                    last += 1
                text = "\n".join(lines[number : last + 1])
                found.setdefault(match[2], Type(crate, match[2], TypeKind(match[1]), path, number + 1, text))
    return found


def used_by(file: str) -> list[str]:
    """The files of its own crate that a file of definitions uses, in the order of its `use` lines."""
    imports, crate = sources.imports(sources.CRATES / file), file.partition("/")[0]
    modules = [taken.module for entries in imports.names.values() for taken in entries]
    modules += [module for entries in imports.modules.values() for module in entries]
    parts = [module.split(".") for module in modules]
    return [f"{crate}/specs/{words[3]}.antt" for words in parts if words[:3] == ["Rattle", crate, "specs"] and len(words) == 4]


def in_order(files: Sequence[str]) -> list[str]:
    """The files of a crate, each after those that it uses."""
    found, begun = list[str](), set[str]()

    def add(file: str) -> None:
        if file in files and file not in begun:
            begun.add(file)
            for used in used_by(file):
                add(used)
            found.append(file)

    for file in files:
        add(file)
    return found


def listed(crates: Sequence[str]) -> Iterator[str]:
    """The lines that --definitions prints: each file of definitions with the first sentence of its comment, lowest crate first, and each
    after those that it uses."""
    for crate in calls.chosen_crates(crates):
        for file in in_order(sources.spec_files(crate)):
            yield f"{file}: {sources.first_sentence(head_comment(file))}"
