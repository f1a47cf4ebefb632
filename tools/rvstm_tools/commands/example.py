import argparse

from rvstm_tools import options
from rvstm_tools.commands import preview
from rvstm_tools.options import Command, argument
from rvstm_tools.programs import checkouts, finding, proving
from rvstm_tools.programs.checkouts import Checkout
from rvstm_tools.programs.proving import Prover

COST = "25 minutes to an hour on four free processors, and 6.5 GB of disk"


def build(checkout: Checkout, name: str) -> None:
    crates, made = checkout.crates_of("rvstm"), checkout.top / finding.BUILT
    sources = checkout.sum_of_sources(crates)
    if checkouts.is_built(made, sources):
        return
    proving.need_rt()
    proving.tell(f"rvstm is proved first, {len(crates)} crates: from nothing {COST}. What is proved already is not proved again.")
    proving.tell(f"`rvstm-tools preview {name}` shows the example unproved, in a few minutes.")
    Prover(checkout, "rvstm", ["run", "--", "--version"]).prove()
    if sources == checkout.sum_of_sources(crates):
        checkouts.note_built(made, sources)


def run(given: argparse.Namespace) -> int:
    checkout = checkouts.here("example")
    block = preview.block_of_example(checkout.top / "examples", given.name)
    build(checkout, given.name)
    return preview.run_example(checkout.top / finding.BUILT, block)


COMMAND = Command(
    summary="Proves and builds rvstm, if that is not done yet, and runs an example.",
    example="rvstm-tools example counter",
    run=run,
    arguments=(argument("name", metavar="NAME", help="an example, such as counter"),),
)
