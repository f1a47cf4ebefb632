"""The files of the crates, and what their `use` lines take from each other."""

import functools
import re
from collections.abc import Iterator, Mapping
from dataclasses import dataclass, field
from pathlib import Path

TOP = Path(__file__).resolve().parents[2]
CRATES = TOP / "crates"
USE = re.compile(r"^ *(?:ghost )?(?:pub )?use ([\w.+]+?)(?:\.\{(.*?)\})?(?: as (\S+?))?;?$", re.M)
QUOTED = re.compile(r'"[^"\n]*"')
QUOTED_NAME = re.compile(r"\{(\w+)")
RUST_USE = re.compile(r"^(pub(?:\(\w+\))? )?use ([\w:]+?)(?:::\{([^{}]*)\}|::(\w+(?: as \w+)?|\*))?;", re.M)


@functools.cache
def libraries() -> Mapping[str, tuple[str, ...]]:
    """The crates, lowest first, each with the libraries that crates.txt gives it."""
    lines = (TOP / "crates.txt").read_text(encoding="utf-8").splitlines()
    rows = (line.partition(":") for line in lines if ":" in line and not line.startswith("#"))
    return {name.split()[0]: tuple(others.split()) for name, _, others in rows}


def crate_names() -> tuple[str, ...]:
    """The crates, lowest first."""
    return tuple(libraries())


def is_crate(name: str) -> bool:
    return (CRATES / name).is_dir()


def crate_of(path: Path) -> str:
    return path.relative_to(CRATES).parts[0]


def shown(path: Path) -> str:
    """A file as pages name it: below crates/."""
    return str(path.relative_to(CRATES))


@functools.cache
def text_of(path: Path) -> str:
    return path.read_text(encoding="utf-8")


@functools.cache
def source_files(crate: str) -> tuple[Path, ...]:
    """The files of a crate's code, without its tests."""
    files = sorted((CRATES / crate / "src").rglob("*.rt"))
    return tuple(path for path in files if "tests" not in path.parts and path.name != "tests.rt")


@functools.cache
def spec_files(crate: str) -> tuple[str, ...]:
    """The files of a crate's definitions, by their names below crates/. `Lib.antt` only lists the others."""
    return tuple(shown(path) for path in sorted((CRATES / crate / "specs").rglob("*.antt")) if path.name != "Lib.antt")


def lines_of(file: str) -> list[str]:
    return text_of(CRATES / file).splitlines()


def without_comments(text: str) -> str:
    return re.sub(r"(?://|--).*", "", QUOTED.sub('""', text))


@functools.cache
def files_of(crate: str) -> tuple[Path, ...]:
    """The files of a crate's code, definitions and proofs."""
    files = (path for folder in ("src", "specs", "proofs") for path in (CRATES / crate / folder).rglob("*"))
    return tuple(sorted(path for path in files if path.suffix in (".rt", ".antt")))


@functools.cache
def code_of(path: Path) -> str:
    """The text of a file of code or of proofs without comments and `use` lines. Of texts the names in braces stay."""
    named = QUOTED.sub(lambda text: f" {' '.join(QUOTED_NAME.findall(text[0]))} ", text_of(path))
    return RUST_USE.sub("", USE.sub("", without_comments(named)))


def first_sentence(lines: list[str]) -> str:
    text = " ".join(line.strip() for line in lines).strip()
    found = re.match(r"(.*?(?<!\.)\.)(?= [A-Z`(]|$)", text)
    return (found[1] if found else text).strip()


def counted(number: int, name: str) -> str:
    noun, _, rest = name.partition(" ")
    return f"{number:,} {noun}{'' if number == 1 else 's'}" + (f" {rest}" if rest else "")


# ---- `use` lines


@dataclass(frozen=True)
class Taken:
    """A name as a `use` line imports it, with its module."""

    module: str
    name: str


@dataclass
class Imports:
    """What the `use` lines of a file import: what each name in the file may refer to, and the module of each `as`."""

    names: dict[str, list[Taken]] = field(default_factory=dict)
    modules: dict[str, list[str]] = field(default_factory=dict)


@dataclass(frozen=True)
class UsedName:
    """A name of a `use` line: its name in the file, and its name in its own module."""

    local: str
    name: str


def entries_of(braces: str) -> Iterator[UsedName]:
    for entry in braces.split(","):
        name, _, local = entry.strip().partition(" as ")
        if name:
            yield UsedName(local or name, name)


@functools.cache
def imports(path: Path) -> Imports:
    """What the `use` lines of a file of definitions, or the `ghost use` lines of code, take."""
    found = Imports()
    for module, braces, alias in USE.findall(text_of(path)):
        if alias:
            found.modules.setdefault(alias, []).append(module)
        for entry in entries_of(braces):
            found.names.setdefault(entry.local, []).append(Taken(module, entry.name))
    return found


@dataclass(frozen=True)
class CodeUse:
    """A name as a `use` line of code takes it: its name in the file, its path, and whether the line is `pub use`."""

    local: str
    path: str
    is_shown: bool


@functools.cache
def code_uses(path: Path) -> tuple[CodeUse, ...]:
    """What the `use` lines of a file of code take. What `*` takes has the local name `*`."""
    found = list[CodeUse]()
    for shown_as, module, braces, name in RUST_USE.findall(text_of(path)):
        for entry in entries_of(braces or name or "self"):
            is_module = entry.name == "self"
            local = module.split("::")[-1] if entry.local == "self" else entry.local
            found.append(CodeUse(local, module if is_module else f"{module}::{entry.name}", shown_as == "pub "))
    return tuple(found)


@functools.cache
def code_imports(path: Path) -> dict[str, str]:
    """The crate of each name that the code of a file imports."""
    found, own = dict[str, str](), crate_of(path)
    for use in code_uses(path):
        first = use.path.split("::")[0]
        is_own = first in ("crate", "self", "super") or (CRATES / own / f"src/{first}.rt").exists()
        found[use.local] = own if is_own else first
    return found
