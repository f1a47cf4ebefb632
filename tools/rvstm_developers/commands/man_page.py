import argparse

from rvstm_developers import options
from rvstm_tools.errors import Status
from rvstm_tools.options import Command, argument
from rvstm_tools.programs import checkouts
from rvstm_tools.releases import helps


def run(given: argparse.Namespace) -> int:
    top = checkouts.here("man-page").top
    if given.check:
        helps.check(top, given.rvstm)
        print(f"{helps.PAGE} is what the help makes")
    else:
        (top / helps.PAGE).write_text(helps.page_of(given.rvstm), encoding="utf-8")
    return Status.DONE


COMMAND = Command(
    "Makes the man page of rvstm, man/rvstm.1, of the help of the program and of its commands.",
    "crates/rvstm/out/rvstm --check",
    run,
    (
        options.RVSTM,
        argument("--check", action="store_true", help="writes nothing: the status is 1 if the page is not what the help makes"),
    ),
)
