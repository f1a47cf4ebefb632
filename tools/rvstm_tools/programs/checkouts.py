"""A checkout: its crates, the checksum of their sources, and whether a built file is of these sources."""

import functools
import hashlib
import subprocess
from collections.abc import Sequence
from pathlib import Path

from rvstm_tools.errors import UserError
from rvstm_tools.programs import finding

PARTS = ("src", "specs", "proofs")


class Checkout:
    def __init__(self, top: Path) -> None:
        self.top = top

    def crate(self, name: str) -> Path:
        return self.top / "crates" / name

    @functools.cached_property
    def needs(self) -> dict[str, list[str]]:
        """The crates of this checkout that each crate stands on, by its name."""
        lines = (self.top / "crates.txt").read_text(encoding="utf-8").splitlines()
        rows = [line.split(":") for line in lines if not line.startswith("#")]
        below = {row[0].split()[0]: row[1].split() for row in rows if len(row) == 2 and row[0].strip()}
        return {name: [needed for needed in names if needed in below] for name, names in below.items()}

    def crates_of(self, crate: str) -> list[str]:
        """A crate and those that it is built on, each after those that it is built on itself."""
        found: list[str] = []

        def add(name: str) -> None:
            for needed in self.needs[name]:
                if needed not in found:
                    add(needed)
            found.append(name)

        add(crate)
        return found

    def sum_of_sources(self, crates: Sequence[str]) -> str:
        """The checksum of the sources of some crates, and of what all of them share."""
        total = hashlib.sha256()
        folders = [self.crate(name) / part for name in crates for part in PARTS]
        files = sorted(file for folder in folders for file in folder.rglob("*") if file.is_file())
        for file in [self.top / "crates.txt", self.top / "HANDLES", *files]:
            data = file.read_bytes()
            total.update(f"{file.relative_to(self.top)} {len(data)}\n".encode() + data)
        return total.hexdigest()

    def lines_of(self, crate: str) -> int:
        return sum(len(file.read_text(encoding="utf-8").splitlines()) for file in (self.crate(crate) / "src").rglob("*.rt"))


def here(what: str) -> Checkout:
    """The checkout of these tools. `what` is what only a checkout has."""
    place = finding.home()
    if not place.is_checkout:
        raise UserError(f"{place.top} is not a checkout, and {what} needs one")
    return Checkout(place.top)


# ---- stamps: beside a built file is one that says of which sources and with which kit it was built


def stamp_of(made: Path) -> Path:
    """The file beside a built file."""
    return made.with_name(f"{made.name}.sources")


def stamp(made: Path, sources: str) -> str:
    return f"{sources} {hashlib.sha256(made.read_bytes()).hexdigest()}\n"


def is_built(made: Path, sources: str) -> bool:
    """Whether a file is there as it was built of the sources of this checksum."""
    return made.is_file() and stamp_of(made).is_file() and stamp_of(made).read_text(encoding="utf-8").startswith(stamp(made, sources))


def kit_of(made: Path) -> str:
    """The line of the kit with which a file was built; empty if it is not noted."""
    return "".join(stamp_of(made).read_text(encoding="utf-8").splitlines()[1:2])


def note_built(made: Path, sources: str) -> None:
    kit = subprocess.run(["rt", "version"], capture_output=True, encoding="utf-8", check=False).stdout.strip()
    stamp_of(made).write_text(f"{stamp(made, sources)}{kit}\n", encoding="utf-8")
