import argparse
import os
import subprocess
from pathlib import Path

from rvstm_developers.texts import TOP
from rvstm_tools.commands.library import CRATE, Linker
from rvstm_tools.errors import Status, UserError
from rvstm_tools.options import Command, argument
from rvstm_tools.programs import checkouts
from rvstm_tools.programs.checkouts import Checkout
from rvstm_tools.releases import kit_crates
from rvstm_tools.releases.products import Product, Products

PROGRAM, OF_LIBRARY = Product.PROGRAM, (Product.ARCHIVE, Product.SHARED)


def are_noted(*made: Product) -> bool:
    """Whether what the checkout builds is there as its sources make it, so that nothing of it is proved again."""
    checkout = Checkout(TOP)
    products = Products(checkout)
    sums = {crate: checkout.sum_of_sources(checkout.crates_of(crate)) for crate in {product.crate for product in made}}
    return all(checkouts.is_built(products.path(product), sums[product.crate]) for product in made)


def words_of_build(checkout: Checkout, kit: Path, jobs: int) -> list[str]:
    """The command line that builds the archive over the libraries below it: what `rt lib` calls, and no more."""
    below = checkout.crates_of(CRATE)[:-1]
    rlibs = {name: checkout.crate(name) / f"out/rlib/{name}.rlib" for name in below}
    missing = [name for name in below if not rlibs[name].is_dir()]
    if missing:
        raise UserError(f"there is no library of {', '.join(missing)}, which `rt ci` leaves")
    words = [str(kit / "bin/rattle"), "build", "--crate-name", CRATE, "src/lib.rt"]
    for name in kit_crates.names_of(checkout, CRATE):
        words += ["--extern", f"{name}={kit}/rlibs/{name}.rlib"]
    words += ["-L", f"dependency={kit}/rlibs"]
    for name in checkout.needs[CRATE]:
        words += ["--extern", f"{name}={rlibs[name]}"]
    for name in below:
        words += ["-L", f"dependency={rlibs[name].parent}"]
    words += ["--antt-project", f"{kit}/rattle/logic/antt-project.json", "--logic-built", f"{kit}/logic_built"]
    words += ["--jobs", str(jobs), "--links", f"{CRATE}=", "--crate-type", "staticlib", "--toolchain", f"{kit}/toolchain"]
    return [*words, "--backend", "llvm", "-o", f"out/lib{CRATE}.a"]


def build_library(checkout: Checkout, products: Products) -> None:
    """Builds the archive and the shared object."""
    linker, folder = Linker(products), checkout.crate(CRATE)
    words = words_of_build(checkout, linker.in_kit("bin/rattle").parents[1], len(os.sched_getaffinity(0)))
    (folder / "out").mkdir(exist_ok=True)
    done = subprocess.run(words, cwd=folder, stdin=subprocess.DEVNULL, stdout=subprocess.PIPE, stderr=subprocess.STDOUT, encoding="utf-8")
    if done.returncode:
        raise UserError(f"rattle build of {CRATE} ended with status {done.returncode}: {' | '.join(done.stdout.splitlines()[-3:])}")
    products.path(Product.ARCHIVE).parent.mkdir(parents=True, exist_ok=True)
    linker.link()


def take_over(checkout: Checkout, has_older: bool) -> None:
    """Notes what is built of which sources, and builds the library for C, if that is not done."""
    products, sources = Products(checkout), checkout.sum_of_sources(checkout.crates_of(CRATE))
    checkouts.note_built(products.path(PROGRAM), checkout.sum_of_sources(checkout.crates_of(PROGRAM.crate)))
    if are_noted(*OF_LIBRARY):
        return
    if has_older:
        if subprocess.run([TOP / "tools/rvstm-tools", "library"], stdout=subprocess.DEVNULL).returncode:
            raise UserError("the library for C is not built")
        return
    build_library(checkout, products)
    for product in OF_LIBRARY:
        checkouts.note_built(products.path(product), sources)


def run(given: argparse.Namespace) -> int:
    take_over(Checkout(TOP), given.again)
    return Status.DONE


COMMAND = Command(
    "Takes over what a green `rt ci` proved and built here, so that nothing of it is proved again.",
    "",
    run,
    (
        argument(
            "--again", action="store_true",
            help="libraries of earlier runs were here before, which `rt ci` put back: `rt lib` builds the library for C",
        ),
    ),
)
