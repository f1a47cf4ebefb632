import argparse

from rvstm_developers import options
from rvstm_tools.errors import Status
from rvstm_tools.options import Command
from rvstm_tools.programs import checkouts
from rvstm_tools.releases import parsers
from rvstm_tools.releases.products import Products


def run(_: argparse.Namespace) -> int:
    checkout = checkouts.here("tool-pages")
    (checkout.top / parsers.PAGE).write_text(parsers.page_of(Products(checkout).version()), encoding="utf-8")
    (checkout.top / parsers.COMPLETION).write_text(parsers.completion(), encoding="utf-8")
    return Status.DONE


COMMAND = Command(
    "Makes man/rvstm-tools.1 and completions/rvstm-tools.bash of the parsers of rvstm-tools.",
    "",
    run,
)
