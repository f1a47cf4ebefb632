"""What was wanted beside what came, for people.

Both are shown in full if they are short, and otherwise a piece of each around the place where they part.
"""

from collections.abc import Sequence
from dataclasses import dataclass

from rvstm_tools.texts import shown

LONGEST_BYTES = 40  # that are shown in full
PIECE_BYTES = 20  # that are shown of longer ones
BYTES_BEFORE = 4  # the place where they part
LONGEST_TEXT = 100  # letters that are shown in full
PIECE_TEXT = 60
TEXT_BEFORE = 20


@dataclass(frozen=True)
class Difference:
    """What was wanted, what came, and where the two part; the place is empty where both are shown in full."""

    wanted: str
    came: str
    place: str = ""


def place_of(wanted: Sequence[object], came: Sequence[object]) -> int:
    """The first place at which two texts, or two rows of bytes, part. They do part."""
    pairs = zip(wanted, came)
    return next((place for place, (one, other) in enumerate(pairs) if one != other), min(len(wanted), len(came)))


def dots(start: int, end: int, length: int) -> tuple[str, str]:
    """What is before and after a piece to say that there is more."""
    return ".." if start > 0 else "", ".." if end < length else ""


def piece_of_bytes(data: bytes, place: int) -> str:
    start = max(0, place - BYTES_BEFORE)
    part = data[start : start + PIECE_BYTES]
    before, after = dots(start, start + PIECE_BYTES, len(data))
    text = [f'"{before}{part.decode()}{after}"'] if part and shown.is_printable(part) else []
    return "  ".join([*text, f"{before}{part.hex()}{after}", f"({len(data)} bytes)"])


def piece_of_text(text: str, place: int) -> str:
    start = max(0, place - TEXT_BEFORE)
    before, after = dots(start, start + PIECE_TEXT, len(text))
    return f"{before}{text[start:start + PIECE_TEXT]}{after}  ({len(text)} letters)"


def cut(text: str) -> str:
    """The beginning of a text that is long."""
    return text if len(text) <= LONGEST_TEXT else f"{text[:LONGEST_TEXT]}.."


def short_bytes(data: bytes) -> str:
    return piece_of_bytes(data, 0) if len(data) > LONGEST_BYTES else shown.shown_bytes(data)


def of_bytes(wanted: bytes, came: bytes) -> Difference:
    if max(len(wanted), len(came)) <= LONGEST_BYTES:
        return Difference(shown.shown_bytes(wanted), shown.shown_bytes(came))
    place = place_of(wanted, came)
    return Difference(piece_of_bytes(wanted, place), piece_of_bytes(came, place), f"at byte {place}")


def of_lines(wanted: str, came: str) -> Difference:
    if max(len(wanted), len(came)) <= LONGEST_TEXT:
        return Difference(wanted, came)
    place = place_of(wanted, came)
    return Difference(piece_of_text(wanted, place), piece_of_text(came, place), f"at letter {place}")
