"""A disk under a file and its log: the calls that change them, and what a cut of the power leaves."""

import struct
from collections.abc import Callable, Iterator, Sequence
from pathlib import Path
from random import Random
from typing import NamedTuple

from rvstm_developers.stores.files import Both

ENTRY = struct.Struct("<ccQQ")
SECTOR = 512
FILE, LOG, OUTPUT = b"d", b"l", b"o"
SYNCED, UNLINKED, TRUNCATED = b"s", b"u", b"t"
TIMES = 3  # images of each cut by sectors, by bytes and with garbage

Way = Callable[[Random, bytes, bytes], bytes]  # what is left of a piece: a draw, what was there, and what was written


class Step(NamedTuple):
    """A call: what was done (written, truncated, synced, unlinked) to what, where or to which length, and the bytes."""

    what: bytes
    whose: bytes
    place: int
    data: bytes


def steps_of(path: Path) -> list[Step]:
    text, place, steps = path.read_bytes() if path.exists() else b"", 0, []
    while place < len(text):
        what, whose, first, length = ENTRY.unpack_from(text, place)
        place += ENTRY.size
        steps.append(Step(what, whose, first, text[place : place + length]))
        place += length
    return steps


# ---- ways in which a piece is left


def all_of(_: Random, __: bytes, new: bytes) -> bytes:
    return new


def none_of(_: Random, old: bytes, __: bytes) -> bytes:
    return old


def by_sector(choice: Random, old: bytes, new: bytes) -> bytes:
    """All or nothing."""
    return choice.choice((old, new))


def by_byte(choice: Random, old: bytes, new: bytes) -> bytes:
    """Each byte is the old or the new one; if there was none before, zero or the new one."""
    mask = int.from_bytes(choice.randbytes(len(new)).translate(bytes(255 * (byte & 1) for byte in range(256))), "big")
    first, second = int.from_bytes(old.ljust(len(new), b"\0"), "big"), int.from_bytes(new, "big")
    return ((second & mask) | (first & ~mask)).to_bytes(len(new), "big")


def by_garbage(choice: Random, old: bytes, new: bytes) -> bytes:
    """The old bytes, the new ones, or others, of which the first may be new."""
    half, noise = len(new) // 2, choice.randbytes(len(new))
    return choice.choice((old, new, choice.choice((noise, new[:half] + noise[half:], bytes(len(new)), b"\xff" * len(new)))))


# ---- what a cut leaves of a file


def write(content: bytearray, place: int, data: bytes) -> None:
    """Puts bytes at a place, with zeros before it if the content ends there."""
    content.extend(bytes(max(place - len(content), 0)))
    content[place : place + len(data)] = data


def change(choice: Random, content: bytearray, step: Step, way: Way) -> None:
    if step.what == TRUNCATED:
        if way(choice, b"", TRUNCATED):
            content.extend(bytes(max(step.place - len(content), 0)))
            del content[step.place :]
        return
    place, end = step.place, step.place + len(step.data)
    while place < end:
        after = min(end, (place // SECTOR + 1) * SECTOR)
        old = bytes(content[place:after])
        piece = way(choice, old, step.data[place - step.place : after - step.place])
        if piece != old:
            write(content, place, piece)
        place = after


def left(choice: Random, synced: bytes, changes: Sequence[Step], way: Way) -> bytes:
    """What a cut leaves of a file that was synced and then changed. Its length is any between those that it had."""
    content = bytearray(synced)
    lengths = [len(content)]
    for step in changes:
        change(choice, content, step, way)
        lengths.append(len(content))
    if way not in (all_of, none_of) and choice.randrange(3) == 0:
        del content[choice.randrange(min(lengths), len(content) + 1) :]
    return bytes(content)


class Disk:
    """A file and its log: what was synced, and the changes since."""

    def __init__(self, both: Both) -> None:
        self.synced = {FILE: both.file or b"", LOG: both.log or b""}
        self.changes: dict[bytes, list[Step]] = {FILE: [], LOG: []}

    def take(self, step: Step) -> None:
        if step.what == SYNCED:
            self.synced[step.whose], self.changes[step.whose] = self.of(step.whose), []
        elif step.what == UNLINKED:
            self.synced[step.whose], self.changes[step.whose] = b"", []
        else:
            self.changes[step.whose].append(step)

    def of(self, whose: bytes) -> bytes:
        """What a file holds without a cut."""
        return left(Random(0), self.synced[whose], self.changes[whose], all_of)

    def both(self) -> Both:
        return Both(self.of(FILE), self.of(LOG))

    def image(self, choice: Random, way: Way, most: int | None = None) -> Both:
        """What a cut leaves, of the first `most` changes if there is a bound. One that is empty may be absent."""
        parts = [left(choice, self.synced[whose], self.changes[whose][:most], way) for whose in (FILE, LOG)]
        return Both(*(content or choice.choice((None, b"")) for content in parts))

    def images(self, choice: Random) -> Iterator[Both]:
        yield self.image(choice, all_of)
        number = max(len(changes) for changes in self.changes.values())
        if number:
            yield self.image(choice, none_of)
            yield self.image(choice, all_of, choice.randrange(number))
            for way in (by_sector, by_byte, by_garbage) * TIMES:
                yield self.image(choice, way)
