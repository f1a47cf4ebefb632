"""Places of random calls: what may be in them, what is drawn, and what is simpler."""

import hashlib
import re
from collections.abc import Sequence
from dataclasses import dataclass
from random import Random
from typing import NamedTuple

from rvstm_tools.errors import UserError
from rvstm_tools.exploring.comparing import Data
from rvstm_tools.texts import keys, numbers

RANGE = re.compile(r"([0-9]+)(?:\.\.([0-9]+))?")
BYTES = re.compile(r"bytes:([0-9]+)(?:\.\.([0-9]+))?")
RANDOM_WORDS = re.compile("(keys|accounts):([0-9]+)")
MOST_RANDOM_WORDS = 64
MOST = 2**64 - 1  # of a number that is drawn
MOST_BYTES = 4096
KINDS = 8  # of eight draws of a number one is an end of its range, and three were seen
OF_AN_END = 4
DISTANCES = (0, 0, 1, -1)  # of a number from one that was seen


class DrawnBytes(Data):
    """Bytes that were drawn. In a word they are hex."""

    def __format__(self, _: str) -> str:
        return self.hex()


Value = str | int | DrawnBytes  # what is in a place of a call


class Span(NamedTuple):
    first: int
    last: int


@dataclass(frozen=True)
class Words:
    words: tuple[str, ...]

    def drawn(self, random: Random, _: Sequence[int]) -> Value:
        return self.words[random.randrange(len(self.words))]

    def samples(self) -> list[Value]:
        return list(self.words)

    def simpler(self, value: Value) -> list[Value]:
        return [*self.words[: self.words.index(str(value))]]


@dataclass(frozen=True)
class NumberSpans:
    spans: tuple[Span, ...]

    def has(self, number: int) -> bool:
        return any(first <= number <= last for first, last in self.spans)

    def drawn(self, random: Random, seen: Sequence[int]) -> Value:
        """Half of the numbers come from anywhere in a range. The others are an end of it, or near a seen one."""
        first, last = self.spans[random.randrange(len(self.spans))]
        kind = random.randrange(KINDS)
        if kind == OF_AN_END:
            return (first, last)[random.randrange(2)]
        if kind > OF_AN_END and seen:
            number = seen[random.randrange(len(seen))] + DISTANCES[random.randrange(len(DISTANCES))]
            if self.has(number):
                return number
        return first + random.randrange(last - first + 1)

    def samples(self) -> list[Value]:
        return [end for span in self.spans for end in span]

    def simpler(self, value: Value) -> list[Value]:
        """Smaller numbers, the smallest first."""
        assert isinstance(value, int)
        distance = value - min(span.first for span in self.spans)
        halves = [value - (distance >> shift) for shift in range(distance.bit_length() + 1)]
        return [number for number in dict.fromkeys(halves) if number != value and self.has(number)]


@dataclass(frozen=True)
class AnyBytes:
    lengths: Span

    def has(self, length: int) -> bool:
        return self.lengths.first <= length <= self.lengths.last

    def drawn(self, random: Random, _: Sequence[int]) -> Value:
        length = self.lengths.first + random.randrange(self.lengths.last - self.lengths.first + 1)
        return DrawnBytes(random.randrange(256) for _ in range(length))

    def samples(self) -> list[Value]:
        return [DrawnBytes(self.lengths.first), DrawnBytes(self.lengths.last)]

    def simpler(self, value: Value) -> list[Value]:
        assert isinstance(value, DrawnBytes)
        spare = len(value) - self.lengths.first
        shorter = [value[: len(value) - (spare >> shift)] for shift in range(len(value).bit_length() + 1)]
        zeros = [value[:at] + b"\0" + value[at + 1 :] for at in range(len(value)) if value[at]]
        return [DrawnBytes(data) for data in [*shorter, bytes(len(value)), *zeros] if data != value]


Place = Words | NumberSpans | AnyBytes


def span_of(found: re.Match[str], most: int) -> Span:
    """The numbers FIRST..LAST. A UserError above the most, or if the first is above the last."""
    ends = [numbers.at_most(digits, most) for digits in (found[1], found[2] or found[1])]
    first, last = ends
    if first is None or last is None:
        raise UserError(f"{found[0]}: a number is at most {most}")
    if first > last:
        raise UserError(f"{found[0]}: the first number is above the last one")
    return Span(first, last)


def random_words(kind: str, count: int, name: str) -> Words:
    """So many keys or accounts for a place, in hex: the same in each run, otherwise random in all bytes."""
    length = keys.KEY_LENGTH if kind == "keys" else keys.ACCOUNT_LENGTH
    return Words(tuple(hashlib.sha256(f"{name} {number}".encode()).hexdigest()[: 2 * length] for number in range(count)))


def place_of(name: str, words: Sequence[str]) -> Place:
    """What may be in a place, by its name and the words after it in a line `draw`."""
    if not words:
        raise UserError("draw: words, numbers, ranges of numbers, bytes:FIRST..LAST, keys:N or accounts:N follow the name")
    if len(words) == 1 and (found := RANDOM_WORDS.fullmatch(words[0])):
        return random_words(found[1], numbers.number_of(found[2], 1, MOST_RANDOM_WORDS, f"how many {found[1]} there are"), name)
    of_bytes = BYTES.fullmatch(words[0])
    if of_bytes and len(words) == 1:
        return AnyBytes(span_of(of_bytes, MOST_BYTES))
    ranges = [found for found in map(RANGE.fullmatch, words) if found]
    if len(ranges) == len(words):
        return NumberSpans(tuple(span_of(found, MOST) for found in ranges))
    if ranges or any(map(BYTES.fullmatch, words)):
        raise UserError("draw: only words follow the name, or only numbers, or one bytes:FIRST..LAST")
    return Words(tuple(words))
