"""The definitions and lemmas of the files in specs/ and proofs/, those in a `module _ (..) where` too."""

import functools
import re
from collections.abc import Iterator
from dataclasses import dataclass, field

from checks import sources

HEAD = re.compile(r"(?P<signs>(?:(?:abbrev|unfoldable|pub|data|record) )*)(?P<name>\S+)(?P<of> :(?: |$))?")
SKIPPED = re.compile(r"(?:pub )?(?:use|mod|infix\w*|open) ")
CONSTRUCTOR = re.compile(r"^ +(?:pub )?(\S+) :", re.M)
ANSWER = re.compile(r"\S+ : goal\.\S+$", re.M)


@dataclass
class SourceItem:
    """A definition or a lemma of a file below crates/."""

    file: str
    line: int
    """The line of its name, from 1."""
    signs: str
    """What comes before its name, such as `abbrev pub`."""
    code: str
    """Its text without comments, and the arguments of the modules around it."""

    @property
    def is_answer(self) -> bool:
        """Whether the prover asks for it: it answers a goal, or is public in a file for a function without goals."""
        crate_and_folder, _, rest = self.file.partition("/proofs/")
        if not rest.count("/") or "pub" not in self.signs:
            return False
        return bool(ANSWER.search(self.code)) or not rest.endswith(("/Answers.antt", "/Invariants.antt"))


@dataclass
class Items:
    by_name: dict[str, SourceItem] = field(default_factory=dict)
    owner: dict[str, str] = field(default_factory=dict)
    """The item of each name that an item gives, such as a constructor of its data."""


@dataclass(frozen=True)
class ModuleLine:
    """A line of a file, without the indentation of its module, and the arguments of all modules around it."""

    number: int
    text: str
    arguments: str


def lines_in_modules(text: str) -> Iterator[ModuleLine]:
    """The lines of a file except empty ones and the heads of modules."""
    modules, head = [(0, "")], ""
    for number, line in enumerate(text.splitlines(), 1):
        indent = len(line) - len(line.lstrip())
        if not line.strip():
            continue
        if head.endswith("where"):
            modules.append((indent, f"{modules[-1][1]} {head}".strip()))
            head = ""
        while indent < modules[-1][0]:
            modules.pop()
        if head or (indent == modules[-1][0] and line.lstrip().startswith("module ")):
            head = f"{head} {line.strip()}".strip()
        else:
            yield ModuleLine(number, line[modules[-1][0] :], modules[-1][1])


@functools.cache
def items(file: str) -> Items:
    """The items of a file below crates/. An equation belongs to the item of its name."""
    found = Items()
    last: SourceItem | None = None
    for line in lines_in_modules(sources.without_comments(sources.text_of(sources.CRATES / file))):
        head = None if line.text.startswith(" ") else HEAD.match(line.text)
        if head and SKIPPED.match(line.text):
            last = None
        elif head and (head["of"] or head["signs"]):
            last = found.by_name[head["name"]] = SourceItem(file, line.number, head["signs"], f"{line.text}\n{line.arguments}")
        elif last:
            last = found.by_name.get(head["name"], last) if head else last
            last.code += f"\n{line.text}"
    for name, item in found.by_name.items():
        found.owner[name] = name
        found.owner |= dict.fromkeys(CONSTRUCTOR.findall(item.code) if "data" in item.signs.split() else (), name)
    return found
