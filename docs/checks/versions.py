"""Whether the library, its header and crates, the man pages, the tools and CHANGELOG.md have the program's version."""

import re
from collections.abc import Iterator
from dataclasses import dataclass

from checks import sources
from rvstm_tools.programs.checkouts import Checkout
from rvstm_tools.releases.products import Product, Products

PRODUCTS = Products(Checkout(sources.TOP))


@dataclass(frozen=True)
class Said:
    """A place that says the version: the file, how it says it, and what it has to say."""

    file: str
    form: str
    wanted: str


def places() -> tuple[Said, ...]:
    version, number = PRODUCTS.version(), str(PRODUCTS.version_number())
    return (
        Said("crates/rvstm_c/src/lib.rt", r"^const VERSION: u32 = ([\d_]+);$", number),
        Said("include/rvstm.h", r"^#define RVSTM_VERSION (\d+)$", number),
        Said("man/rvstm.1", r'^\.TH .*"rvstm (\S+)"', version),
        Said("man/rvstm-tools.1", r'^\.TH .*"rvstm-tools (\S+)"', version),
        Said("tools/pyproject.toml", r'^version = "(\S+)"', version),
        Said("rust/rvstm/Cargo.toml", r'^version = "(\S+)"', version),
        Said("rust/rvstm-sys/Cargo.toml", r'^version = "(\S+)"', version),
        Said("CHANGELOG.md", r"^## (\S+)", version),
    )


def wrong() -> Iterator[str]:
    for said in places():
        found = re.search(said.form, sources.text_of(sources.TOP / said.file), re.M)
        if not found or found[1].replace("_", "") != said.wanted:
            yield f"{said.file}: the version is {found[1] if found else 'not there'}, and the program's {PRODUCTS.version()}"


def line_of_sources() -> str:
    """The line with the checksum of the sources of the program."""
    return f"sources of rvstm {PRODUCTS.version()}: SHA-256 {PRODUCTS.sources(Product.PROGRAM)}"
