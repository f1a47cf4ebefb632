import argparse
import email.utils
import functools
import hashlib
from collections.abc import Iterator, Mapping
from dataclasses import dataclass, field
from pathlib import Path

from rvstm_tools import options
from rvstm_tools.errors import Status
from rvstm_tools.options import Command, argument
from rvstm_tools.programs import checkouts
from rvstm_tools.releases import archives, bills, helps, kit_crates, packing, parts
from rvstm_tools.releases.archives import EXECUTABLE, Entries, File
from rvstm_tools.releases.parts import Parts
from rvstm_tools.releases.products import Product, Products

PROGRAM_TEXT = """executes blocks of contract calls for a ledger node
 A contract is an RV32IM program, and a block a list of calls over one
 storage. rvstm runs a block in order or on threads, and both give the same,
 which is proved of the running code."""
LIBRARY_TEXT = """executes blocks of contract calls (library for C)
 Sessions of blocks in a program: a storage in memory, and requests by calls
 of C, answered as by "rvstm chain". This package has the archive, the shared
 object, the header, and examples in C, C++, Python and Rust."""
SDK_TEXT = """writes, builds and tests contracts for rvstm
 Headers, start-up code, a linker script and a Makefile for contracts in C,
 a crate for contracts in Rust, examples, and the command rvstm-tools, which
 tests and traces calls. The SDK is in /usr/share/rvstm-sdk."""
SDK_SUGGESTS = "cargo, rustc, rust-src, librust-compiler-builtins-dev, python3-cryptography"
"""For contracts in Rust, and for the example of a node."""
BILL = "rvstm.cdx.json"
CLEAN = f"#!/bin/sh\nset -e\nfind /usr/{parts.SDK}/tools -name __pycache__ -prune -exec rm -r {{}} +\n"


@dataclass(frozen=True)
class Package:
    name: str
    architecture: str
    section: str
    text: str
    entries: Entries
    depends: str
    more: Mapping[str, str] = field(default_factory=dict)  # further fields
    control: Entries = field(default_factory=dict)  # further files of its control


class Release:
    def __init__(self, products: Products) -> None:
        self.products = products
        self.parts = Parts(products)
        self.commit = products.commit_of_clean()
        self.seconds = int(products.git("log", "-1", "--format=%ct"))
        self.maintainer = products.git("log", "-1", "--format=%cn <%ce>").strip()
        self.version = products.version()
        self.crates = kit_crates.crates_below(products.checkout, kit_crates.folder_of_kit(), "rvstm", "rvstm_c")

    @functools.cached_property
    def bill(self) -> bytes:
        built = {product.file: self.products.built(product) for product in Product}
        checksums = {name: hashlib.sha256(data).hexdigest() for name, data in built.items()}
        glibc = parts.glibc({"bin/rvstm": File(built["rvstm"]), "lib/librvstm.so.0": File(built["librvstm.so"])})
        kit = checkouts.kit_of(self.products.path(Product.PROGRAM))
        return bills.bill_of(bills.Released(self.version, self.commit, self.seconds, kit, checksums, glibc), self.crates)

    def notes(self, package: str) -> Entries:
        """What each package says of itself: the commit, what is proved and of which parts, and that no licence is chosen."""
        folder, product = f"share/doc/{package}", parts.PROVED.get(package)
        found: Entries = {f"{folder}/copyright": File(parts.NO_LICENCE.encode()), f"{folder}/commit": File(f"{self.commit}\n".encode())}
        if product:
            found[f"{folder}/proved"] = File(f"Proved is {self.products.proof_of(product)}.\n".encode())
            found[f"{folder}/{BILL}"] = File(self.bill)
        return found

    def changes(self, package: str) -> Entries:
        """The list of changes in Debian's form, which names the commit."""
        date = email.utils.formatdate(self.seconds).replace("-0000", "+0000")
        head, change = f"{package} ({self.version}) unstable; urgency=medium", f"  * Made of commit {self.commit[:12]}."
        text = f"{head}\n\n{change}\n\n -- {self.maintainer}  {date}\n"
        return {f"share/doc/{package}/changelog.gz": File(archives.gzip_of(text.encode()))}

    def packages(self) -> Iterator[Package]:
        program, library = self.parts.program(), self.parts.library("/usr", f"lib/{parts.TRIPLET}")
        name, _, number = self.products.shared_name().partition(".so.")
        linked: Entries = {
            "shlibs": File(f"{name} {number} librvstm-dev (>= {self.version})\n".encode()),
            "triggers": File(b"activate-noawait ldconfig\n"),
        }
        yield Package("rvstm", "amd64", "misc", PROGRAM_TEXT, program, f"libc6 (>= {parts.glibc(program)})")
        yield Package(
            "librvstm-dev", "amd64", "libdevel", LIBRARY_TEXT, library, f"libc6 (>= {parts.glibc(library)})",
            {"Suggests": "rvstm, rvstm-sdk"}, linked,
        )
        yield Package(
            "rvstm-sdk", "all", "devel", SDK_TEXT, self.parts.sdk(), "clang, lld, llvm, make, python3 (>= 3.11)",
            {"Recommends": "rvstm", "Suggests": SDK_SUGGESTS}, {"prerm": File(CLEAN.encode(), EXECUTABLE)},
        )

    def deb_of(self, package: Package) -> bytes:
        name = package.name
        entries = package.entries | self.parts.pages(name, is_packed=True) | self.notes(name) | self.changes(name)
        if name in parts.OVERRIDES:
            entries[f"share/lintian/overrides/{name}"] = File(parts.OVERRIDES[name].encode())
        fields = {
            "Package": name, "Version": self.version, "Architecture": package.architecture, "Maintainer": self.maintainer,
            "Section": package.section, "Priority": "optional", "Depends": package.depends, **package.more,
            "Description": package.text,
        }
        placed: Entries = {f"usr/{path}": entry for path, entry in entries.items()}
        return packing.deb_of(fields, package.control, placed, self.seconds)

    def archive(self, folder: str) -> bytes:
        entries = self.parts.program() | self.parts.library("${pcfiledir}/../..", "lib") | self.parts.sdk()
        for package in parts.PAGES:
            entries |= self.parts.pages(package, is_packed=False) | self.notes(package)
        placed = {f"{folder}/{path}": entry for path, entry in entries.items()}
        return archives.gzip_of(archives.tar_of(placed, self.seconds))

    def files(self) -> dict[str, bytes]:
        """The files of the release by their names, SHA256SUMS among them."""
        program, folder = self.products.built(Product.PROGRAM), f"rvstm-{self.version}"
        kit = checkouts.kit_of(self.products.path(Product.PROGRAM))
        noted = f"{self.products.sources(Product.PROGRAM)} {hashlib.sha256(program).hexdigest()}\n{kit}\n"
        made = {"rvstm": program, "rvstm.sources": noted.encode(), BILL: self.bill}
        made |= {f"{one.name}_{self.version}_{one.architecture}.deb": self.deb_of(one) for one in self.packages()}
        made[f"{folder}-linux-amd64.tar.gz"] = self.archive(folder)
        sums = "".join(f"{hashlib.sha256(data).hexdigest()}  {name}\n" for name, data in sorted(made.items()))
        return made | {"SHA256SUMS": sums.encode()}


def run(given: argparse.Namespace) -> int:
    folder, products = given.folder, Products(checkouts.here("release"))
    release = Release(products)
    made = release.files()
    products.check_versions()
    helps.check(products.checkout.top, products.path(Product.PROGRAM))
    folder.mkdir(parents=True)
    for name, data in made.items():
        (folder / name).write_bytes(data)
    (folder / "rvstm").chmod(EXECUTABLE)
    print(f"version {release.version} of commit {release.commit}")
    without = [crate.name for crate in release.crates if not crate.notices]
    print(f"{len(release.crates)} crates of the kit; without a notice of a licence: {', '.join(without)}")
    print(f"rvstm: SHA-256 {hashlib.sha256(made['rvstm']).hexdigest()}, proved is {products.proof_of(Product.PROGRAM)}")
    for name in sorted(made):
        print(f"{(folder / name).stat().st_size:>10,}  {folder / name}")
    return Status.DONE


COMMAND = Command(
    summary="Makes the files of a release: packages for Debian, an archive for other systems, and their checksums.",
    example="rvstm-tools release /tmp/release",
    run=run,
    arguments=(argument("folder", type=Path, metavar="FOLDER", help="a folder that is made for the files"),),
)
