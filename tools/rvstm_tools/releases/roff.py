"""Texts of man pages."""

import re
from collections.abc import Iterable, Iterator


def escaped(text: str) -> str:
    """A text of roff: no sign of it is a command, and a minus is one."""
    text = text.replace("\\", "\\e").replace("-", "\\-")
    return f"\\&{text}" if text[:1] in (".", "'") else text


def roman(text: str) -> str:
    """A text in which each <PLACE> is in italics, and all else bold."""
    return re.sub(r"<([^>]*)>", r"\\fI\1\\fB", f"\\fB{escaped(text)}\\fR")


def as_it_is(lines: Iterable[str]) -> Iterator[str]:
    yield ".nf"
    yield from map(escaped, lines)
    yield ".fi"
