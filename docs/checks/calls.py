"""The public calls of the crates, with their clauses, as the sources have them."""

import functools
import re
from collections.abc import Iterator, Mapping, Sequence
from dataclasses import dataclass, field
from pathlib import Path

from checks import sources
from rvstm_tools.errors import MisuseError

ITEM = re.compile(r"^(?P<indent> *)(?:pub (?:const |extern \"C\" )?(?P<kind>fn|struct|enum|trait|const|type) (?P<name>\w+)|fn (?P<method>\w+))")
IMPL = re.compile(r"^(?:unsafe )?impl(?:<[^{]*?>)? (?:(?P<of>[\w:<>', ]+) for )?(?P<type>\w+)")
TRAIT = re.compile(r"^pub trait (?P<type>\w+)")
PRIVATE = re.compile(r" *(?:pub\(\w+\) )?fn ")
CLAUSE = re.compile(r"\b(requires|ensures)(?: (\w+))? \{")
USED = re.compile(r"^pub use [\w:]*?(?:::)?(\w+|\{[^}]*\});", re.M)
DEFINED = re.compile(r"^pub (?:const |extern \"C\" )?(?:fn|struct|enum|trait|const|type) (\w+)", re.M)
MODULE = re.compile(r"^pub mod (\w+);", re.M)


@dataclass(frozen=True)
class Clause:
    """A clause of a contract: `requires` or `ensures`, its name if it has one, and what is between its braces."""

    kind: str
    name: str
    text: str


@dataclass
class PublicCall:
    """A public call, or a public type, of a crate."""

    crate: str
    name: str  # its path in the crate, such as `MvMap::read`
    path: Path
    line: int
    is_function: bool
    comment: list[str] = field(default_factory=list)  # the `///` lines above it, without the slashes
    head: str = ""  # what comes before its body: its arguments, its result and its contract

    @property
    def full_name(self) -> str:
        """Its path with the crate, as pages name it."""
        return f"{self.crate}::{self.name}"

    @functools.cached_property
    def clauses(self) -> tuple[Clause, ...]:
        return tuple(clauses_of(self.head))

    @property
    def clause_names(self) -> list[str]:
        return [clause.name for clause in self.clauses if clause.kind == "ensures" and clause.name]

    @property
    def has_promise(self) -> bool:
        """Whether it has an `ensures` clause."""
        return any(clause.kind == "ensures" for clause in self.clauses)

    @property
    def signature(self) -> str:
        """Its head before the first clause."""
        first = CLAUSE.search(self.head)
        return self.head[: first.start()] if first else self.head


def clauses_of(head: str) -> Iterator[Clause]:
    for match in CLAUSE.finditer(head):
        depth, end = 1, match.end()
        while depth and end < len(head):
            depth += {"{": 1, "}": -1}.get(head[end], 0)
            end += 1
        yield Clause(match[1], match[2] or "", head[match.end() : end - 1])


def split_types(text: str) -> list[str]:
    """The parts of a list at its outermost commas, up to a bracket that was not opened."""
    depth, parts = 0, [""]
    for before, sign in zip(" " + text, text, strict=False):
        depth += (sign in "<([{") - (sign in ")]}" or (sign == ">" and before != "-"))
        if depth < 0:
            break
        if sign == "," and depth == 0:
            parts.append("")
        else:
            parts[-1] += sign
    return [part.strip() for part in parts if part.strip()]


def calls_in(path: Path) -> Iterator[PublicCall]:
    """Each call and type of a file that is public in its module. A name may come twice: its heads belong together."""
    crate, owner, of_trait = sources.crate_of(path), "", False
    call: PublicCall | None = None
    comment: list[str] = []
    for number, line in enumerate(sources.text_of(path).splitlines(), 1):
        if line == "}":
            owner = ""
        block = IMPL.match(line) or TRAIT.match(line)
        if block and line.endswith("{"):
            owner, of_trait = block["type"], " for " in line or line.startswith("pub trait")
        item = ITEM.match(line)
        if item and (item["name"] or (of_trait and len(item["indent"]) == 4)):
            name = (owner + "::" if item["indent"] else "") + (item["name"] or item["method"])
            call = PublicCall(crate, name, path, number, item["kind"] in ("fn", None), comment)
            yield call
        elif PRIVATE.match(line):
            call = None
        comment = comment_after(comment, line)
        if call:
            call.head += line + "\n"
        if re.match(r" *\{$|.* \{$", line) and not line.endswith(("ensures {", "(λ {")):
            call = None


def comment_after(comment: list[str], line: str) -> list[str]:
    """The `///` lines that end with this line. Attributes may come between them and what they are of."""
    text = line.strip()
    if text.startswith("///"):
        return [*comment, text.removeprefix("///").strip()]
    return comment if text.startswith("#[") else []


def exported(crate: str) -> frozenset[str] | None:
    """The names that a library shows; None for a program, which shows no other crate anything."""
    path = sources.CRATES / crate / "src/lib.rt"
    if not path.exists():
        return None
    text = sources.text_of(path)
    used = (name for group in USED.findall(text) for name in re.findall(r"\w+", group))
    return frozenset([*used, *DEFINED.findall(text), *MODULE.findall(text)])


@functools.cache
def calls_of(crate: str) -> Mapping[str, PublicCall]:
    found, names = dict[str, PublicCall](), exported(crate)
    made = [call for path in sources.source_files(crate) for call in calls_in(path)]
    for call in made:
        if names is not None and call.name.split("::")[0] not in names:
            if call.path.stem not in names:
                continue
            call.name = f"{call.path.stem}::{call.name}"
        first = found.setdefault(call.name, call)
        if first is not call:
            first.head += call.head
    return found


def call_of(full_name: str) -> PublicCall | None:
    """The public call or type of this name, such as `rv_isa::decode`; None if there is none."""
    crate, _, name = full_name.partition("::")
    return calls_of(crate).get(name) if crate in sources.crate_names() else None


def chosen_crates(words: Sequence[str]) -> Sequence[str]:
    for word in words:
        if word not in sources.crate_names():
            raise MisuseError(f"there is no crate {word}")
    return words or sources.crate_names()


def listed(crates: Sequence[str]) -> Iterator[str]:
    """The lines that --calls prints: each crate, and its public calls that promise something, by name."""
    for crate in chosen_crates(crates):
        promising = [call for call in calls_of(crate).values() if call.is_function and call.has_promise]
        yield from [crate] if promising else []
        for call in sorted(promising, key=lambda call: call.name):
            clauses = f" ({', '.join(call.clause_names)})" if call.clause_names else ""
            sentence = sources.first_sentence(call.comment)
            yield f"  {call.name}{clauses}" + (f": {sentence}" if sentence else "")
