"""Decimal numbers in texts. They may have any number of digits, of which Python's `int` takes only some thousands."""

import re

from rvstm_tools.errors import UserError

DECIMAL = re.compile("[0-9]+")


def is_decimal(word: str) -> bool:
    """Whether a word is digits of ASCII alone."""
    return DECIMAL.fullmatch(word) is not None


def at_most(digits: str, most: int) -> int | None:
    """The number that some digits are, or None if it is above `most`."""
    digits = digits.lstrip("0") or "0"
    if len(digits) > len(str(most)) or int(digits) > most:
        return None
    return int(digits)


def number_of(word: str, least: int, most: int, what: str) -> int:
    """The number of a word. `what` is what the message calls it."""
    number = at_most(word, most) if is_decimal(word) else None
    if number is None or number < least:
        raise UserError(f"{word}: {what} is a number of {least} to {most}")
    return number
