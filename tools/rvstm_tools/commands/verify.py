import argparse
import shutil
import sys
from pathlib import Path

from rvstm_tools import options
from rvstm_tools.commands import example, library
from rvstm_tools.errors import Status, UserError
from rvstm_tools.options import Command, argument
from rvstm_tools.programs import checkouts, proving
from rvstm_tools.releases import verifying
from rvstm_tools.releases.products import Product, Products

COST = "that lasts up to an hour on four free processors"


def build(products: Products, product: Product, is_asked: bool) -> None:
    if not shutil.which("rt"):
        raise UserError(f"{product.value} is not built here, and there is no rt, which proves it: compare with --sums")
    proving.tell(f"{product.value} is proved and built first; {COST}")
    if is_asked and input("Go on? [y/N] ").strip().lower() not in ("y", "yes"):
        raise UserError("nothing was compared; --sums compares with the checksums of a release, and builds nothing")
    if product is Product.PROGRAM:
        example.build(products.checkout, "counter")
    else:
        library.build(products.checkout)


def run(given: argparse.Namespace) -> int:
    data = Path(given.file).read_bytes()
    if given.sums is not None:
        comparisons = verifying.by_sums(given.file, data, given.sums)
    else:
        products, is_asked = Products(checkouts.here("verify without --sums")), sys.stdin.isatty() and not given.yes
        comparisons = verifying.by_building(given.file, data, products, lambda product: build(products, product, is_asked))
    is_same = True
    for comparison in comparisons:
        print(comparison.text, flush=True)
        is_same = is_same and comparison.is_same
    return Status.DONE if is_same else Status.FAILED


COMMAND = Command(
    summary="Says whether a program or a package has the proved program.",
    example="rvstm-tools verify rvstm_0.2.0_amd64.deb --sums SHA256SUMS",
    run=run,
    arguments=(
        argument("file", metavar="FILE", help="a program or a package"),
        argument("--sums", metavar="SHA256SUMS", help="the checksums of a release"),
        argument("--yes", action="store_true", help="proves and builds what is not there, and does not ask"),
    ),
)
