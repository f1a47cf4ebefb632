"""Dumps: what a session answers to `dump`, a block file of entries alone. A result may stand for one."""

import re
from dataclasses import dataclass

from rvstm_tools.errors import UserError
from rvstm_tools.texts import results
from rvstm_tools.texts.blocks import Rules
from rvstm_tools.texts.keys import Storage

BLOCK, OLD_BLOCK, NEW_BLOCK = "rvblock ", "rvblock 1\n", "rvblock 2\n"
RULES = re.compile("gas ([123])\n")
SHOWN_OF_WRONG_LINE = 60  # letters


@dataclass(frozen=True)
class Dump:
    """A storage, and the rules that a dump names; a result names none."""

    storage: Storage
    rules: Rules | None


def read_dump(path: str) -> Dump:
    """The dump of a file. Another file is refused with the first line that is wrong."""
    with open(path, encoding="ascii", errors="backslashreplace") as file:
        lines = enumerate(file, 1)
        _, head = next(lines, (1, ""))
        if not head.startswith(BLOCK):
            return Dump(results.read_storage(path), None)
        rules = Rules.ONE if head == OLD_BLOCK else rules_of(path, head, *next(lines, (2, "")))
        storage: Storage = {}
        for number, text in lines:
            form = results.LINES["store"].fullmatch(text)
            if form is None:
                raise wrong(path, number, text)
            storage[results.key_of(form[1])] = results.bytes_of(form[2])
    return Dump(storage, rules)


def rules_of(path: str, head: str, number: int, text: str) -> Rules:
    """The rules that the second line names, after a first line of the newer format."""
    if head != NEW_BLOCK:
        raise wrong(path, 1, head)
    form = RULES.fullmatch(text)
    if form is None:
        raise wrong(path, number, text)
    return Rules(int(form[1]))


def wrong(path: str, number: int, text: str) -> UserError:
    return UserError(f"{path}: line {number} is not one of a dump: {text.strip()[:SHOWN_OF_WRONG_LINE]}")
