"""The kit's crates that a crate of a checkout stands on: what each was written after, and the notices of licences that the kit has."""

import re
import subprocess
from collections.abc import Mapping
from dataclasses import dataclass
from pathlib import Path

from rvstm_tools.programs import proving
from rvstm_tools.programs.checkouts import Checkout

BELOW = re.compile(r"^dep (\w+)$", re.M)
UPSTREAM = re.compile(r"crate `([\w-]+)` (\d+\.\d+\.\d+)|\b(clap_builder|SQLite) (\d+\.\d+\.\d+)")
"""What the page of a crate of the kit names first: a crate of Rust, or SQLite, with its version."""


@dataclass(frozen=True)
class Upstream:
    """What a crate of the kit is a port of, or was written after."""

    name: str
    version: str


@dataclass(frozen=True)
class KitCrate:
    name: str
    upstream: Upstream | None
    notices: Mapping[str, str]
    """The notices of licences, by the names of their files."""


def folder_of_kit() -> Path:
    """The folder of the kit whose `rt` is on the path."""
    proving.need_rt()
    done = subprocess.run(["rt", "doc"], capture_output=True, encoding="utf-8", check=True)
    return Path(done.stdout.splitlines()[0]).parent


def names_of(checkout: Checkout, crate: str) -> list[str]:
    """The kit's libraries that a crate names, in their order in crates.txt, and std."""
    rows = (line.split(":") for line in (checkout.top / "crates.txt").read_text(encoding="utf-8").splitlines() if not line.startswith("#"))
    named = next(row[1].split() for row in rows if len(row) == 2 and row[0].split()[:1] == [crate])
    return ["std", *(name for name in named if name not in checkout.needs)]


def kit_crate(kit: Path, name: str) -> KitCrate:
    folder = kit / "rattle" / name
    page = folder / "README.md"
    found = UPSTREAM.search(page.read_text(encoding="utf-8")) if page.is_file() else None
    upstream = Upstream(found[1] or found[3], found[2] or found[4]) if found else None
    return KitCrate(name, upstream, {path.name: path.read_text(encoding="utf-8") for path in sorted(folder.glob("LICEN[CS]E*"))})


def crates_below(checkout: Checkout, kit: Path, *crates: str) -> list[KitCrate]:
    """The kit's crates that some crates of a checkout stand on, also through others of the kit, sorted by their names."""
    found: set[str] = set()
    waiting = [name for crate in crates for name in names_of(checkout, crate)]
    while waiting:
        name = waiting.pop()
        if name not in found:
            found.add(name)
            waiting += BELOW.findall((kit / f"rlibs/{name}.rlib/format").read_text(encoding="utf-8"))
    return [kit_crate(kit, name) for name in sorted(found)]
