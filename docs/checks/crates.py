"""The crates: what each is for, and whose lemmas its proofs cite."""

import re
from collections.abc import Iterator, Sequence

from checks import calls, sources

LEMMA = re.compile(r"\bRattle\.(\w+)\.proofs\.")


def listed(crates: Sequence[str]) -> Iterator[str]:
    """The lines that --crates prints: each crate with what the first sentence of its code says."""
    for crate in calls.chosen_crates(crates):
        paths = [sources.CRATES / crate / "src" / name for name in ("lib.rt", "main.rt")]
        lines = next((sources.text_of(path).splitlines() for path in paths if path.is_file()), list[str]())
        yield f"{crate}: {sources.first_sentence([line.removeprefix('//!') for line in lines if line.startswith('//!')])}"


def lemmas_of(crate: str) -> list[str]:
    """The crates whose lemmas the proofs of a crate cite, lowest first."""
    found = set[str]()
    for path in sorted((sources.CRATES / crate).rglob("*")):
        if path.suffix in (".antt", ".rt") and "out" not in path.parts:
            found.update(LEMMA.findall(sources.text_of(path)))
    return [other for other in sources.crate_names() if other in found - {crate}]


def lemmas(crates: Sequence[str]) -> Iterator[str]:
    """The lines that --lemmas prints: each crate with the crates whose lemmas its proofs cite."""
    for crate in calls.chosen_crates(crates):
        cited = lemmas_of(crate)
        yield from [f"{crate}: {', '.join(cited)}"] if cited else []
