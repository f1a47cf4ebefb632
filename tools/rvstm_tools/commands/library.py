import argparse
import subprocess
import sys
import tempfile
from pathlib import Path

from rvstm_tools import options
from rvstm_tools.errors import Status, UserError
from rvstm_tools.options import Command
from rvstm_tools.programs import checkouts, proving
from rvstm_tools.programs.checkouts import Checkout
from rvstm_tools.programs.proving import Prover
from rvstm_tools.releases import kit_crates
from rvstm_tools.releases.products import Product, Products

CRATE = "rvstm_c"


class Linker:
    """Links the library with the functions of the kit for malloc, realloc and free."""

    def __init__(self, products: Products) -> None:
        self.products = products
        self.crate = products.checkout.crate(CRATE)

    def run(self, *words: str | Path, executable: Path | None = None) -> str:
        done = subprocess.run(
            [str(word) for word in words], executable=executable, cwd=self.crate, capture_output=True, encoding="utf-8", check=False
        )
        if done.returncode:
            sys.stderr.write(done.stdout + done.stderr)
            raise UserError(f"{words[0]} ended with status {done.returncode}; what it said is above")
        return done.stdout

    def in_kit(self, path: str) -> Path:
        found = kit_crates.folder_of_kit() / path
        if not found.is_file():
            raise UserError(f"the kit has no {found}: it is not whole")
        return found

    def link(self) -> None:
        llvm = self.in_kit("toolchain/bin/clang")  # all of LLVM's tools are this one file, by the name that it is called by
        archive, shared = self.products.path(Product.ARCHIVE), self.products.path(Product.SHARED)
        with tempfile.TemporaryDirectory() as place:
            whole, heap = f"{place}/rvstm.o", self.in_kit("c/liblibc_c.a")
            self.run("ld.lld", "-r", "-o", whole, "--whole-archive", self.crate / "out/librvstm_c.a", heap, executable=llvm)
            self.run("llvm-objcopy", "--wildcard", "--keep-global-symbol=rvstm_*", whole, executable=llvm)
            archive.unlink(missing_ok=True)
            self.run("llvm-ar", "rcsD", archive, whole, executable=llvm)
        name = self.products.shared_name()
        words: list[str | Path] = ["-shared", "-soname", name, "-z", "defs", "-z", "now", "--eh-frame-hdr", "-o", shared]
        below = [self.in_kit("toolchain/lib/libgcc.a"), self.in_kit("toolchain/lib/libc.so.6")]
        self.run("ld.lld", *words, "--whole-archive", archive, "--no-whole-archive", *below, executable=llvm)
        asked_for = shared.with_name(name)
        asked_for.unlink(missing_ok=True)
        asked_for.hardlink_to(shared)  # `rt ci` refuses symbolic links below crates/


def build(checkout: Checkout) -> None:
    """Proves and builds the library, if that is not done yet, and links it."""
    crates = checkout.crates_of(CRATE)
    sources, products = checkout.sum_of_sources(crates), Products(checkout)
    if all(checkouts.is_built(products.path(product), sources) for product in (Product.ARCHIVE, Product.SHARED)):
        return
    proving.need_rt()
    proving.tell(f"the library is proved and built first, {len(crates)} crates: from nothing 15 minutes or more")
    Prover(checkout, CRATE, ["lib"]).prove()
    products.path(Product.ARCHIVE).parent.mkdir(parents=True, exist_ok=True)
    Linker(products).link()
    if sources == checkout.sum_of_sources(crates):
        for product in (Product.ARCHIVE, Product.SHARED):
            checkouts.note_built(products.path(product), sources)


def run(_: argparse.Namespace) -> int:
    checkout = checkouts.here("library")
    build(checkout)
    archive, shared = (checkout.top / product.value for product in (Product.ARCHIVE, Product.SHARED))
    for path in (archive, shared):
        print(f"{path}: {path.stat().st_size:,} bytes")
    print(f"C:      cc -I {checkout.top / 'include'} FILE.c {archive}")
    print(f"Rust:   rustc FILE.rs -C link-arg={archive}")
    print(f"others: load {shared}")
    return Status.DONE


COMMAND = Command(
    summary="Proves and builds the library for C: an archive and a shared object.",
    example="rvstm-tools library",
    run=run,
)
