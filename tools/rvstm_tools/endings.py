"""How scripts beside this package begin and end, whose text is their help."""

import argparse
import os
import sys
from collections.abc import Callable
from typing import NoReturn

from rvstm_tools import errors
from rvstm_tools.errors import Status


def parser_of(text: str) -> argparse.ArgumentParser:
    """A parser whose usage is the second part of the text of a script."""
    return argparse.ArgumentParser(usage=text.split("\n\n")[1].removeprefix("usage: "))


def run(main: Callable[[], int | None], text: str) -> NoReturn:
    """Ends the script with the status of main, or with one line if the user made a mistake. Without words it prints how the script is
    called, and its whole text if it was asked for help."""

    def status() -> int:
        if sys.argv[1:] in (["--help"], ["-h"]):
            print(text.rstrip())
            return Status.DONE
        if not sys.argv[1:]:
            print(text.split("\n\n", 1)[1].rstrip(), file=sys.stderr)
            return Status.MISUSED
        return main() or Status.DONE

    errors.print_all_letters()
    sys.exit(errors.ended(os.path.basename(sys.argv[0]), status))
