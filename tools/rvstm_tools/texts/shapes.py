"""Shapes: what the bytes of a value or an input are, by the lines `shape` of a list (`rvstm-tools block --help`)."""

import enum
import re
from collections.abc import Iterable, Iterator, Sequence
from dataclasses import dataclass

from rvstm_tools.errors import UserError
from rvstm_tools.texts import keys, numbers, shown, words

TYPE = re.compile("([ui])(8|16|32|64)|(key|account)|(text|bytes)(?::([0-9]+))?")
NAME = re.compile(r"[A-Za-z_]\w*", re.ASCII)
TYPE_WORDS = frozenset({"key", "account", "text", "bytes", *(f"{sign}{bits}" for sign in "ui" for bits in (8, 16, 32, 64))})
TYPES = "u8 .. u64, i8 .. i64, key, account, text, text:N, bytes or bytes:N"
OF_WORDS = frozenset({"row", "table", "hex"}) | TYPE_WORDS - {"text", "bytes"}  # what is before the colon of a word of a list
REPEATED = ".."
LONGEST_FIELD = 4096  # bytes that a text or bytes may have


class FieldKind(enum.Enum):
    """What the bytes of a field are."""

    UNSIGNED = enum.auto()
    SIGNED = enum.auto()
    KEY = enum.auto()
    ACCOUNT = enum.auto()
    TEXT = enum.auto()  # printable bytes, and zeros after them
    BYTES = enum.auto()
    FIXED = enum.auto()  # always the same bytes, such as the number that says what an input asks for


@dataclass(frozen=True)
class Field:
    """A field: its name, which may be empty, what it is, and its length in bytes; None if it has all the rest."""

    name: str
    kind: FieldKind
    length: int | None
    word: str  # the word of the list that says it

    def misfit(self, data: bytes) -> str:
        """Why bytes of the right length are not this field; empty if they are."""
        if self.kind is FieldKind.FIXED and data != words.bytes_of(self.word):
            return f"it has {data.hex()} in place of {self.word}"
        if self.kind is FieldKind.TEXT and not shown.is_printable(data.rstrip(b"\0")):
            return f"{self.name or 'its text'} has bytes that are not printable"
        return ""


@dataclass(frozen=True)
class Part:
    field: Field
    data: bytes
    label: str


@dataclass(frozen=True)
class Misfit:
    """Why some bytes are not as a shape says."""

    reason: str


@dataclass(frozen=True)
class Shape:
    """What some bytes are: fields, and after them others that come as often as there are bytes."""

    fields: tuple[Field, ...]
    repeated: tuple[Field, ...] = ()

    @property
    def least(self) -> int:
        """The bytes of its fields, without the rest that may follow."""
        return length_of(self.fields)

    @property
    def is_open(self) -> bool:
        return bool(self.repeated) or any(field.length is None for field in self.fields)

    def parts(self, data: bytes) -> list[Part] | Misfit:
        """The fields of some bytes, or why these are not as the shape says."""
        if len(data) < self.least or len(data) > self.least and not self.is_open:
            at_least = "at least " if self.is_open else ""
            return Misfit(f"it has {len(data)} bytes in place of {at_least}{self.least}")
        if self.repeated and (len(data) - self.least) % length_of(self.repeated):
            return Misfit(f"its last {len(data) - self.least} bytes are not parts of {length_of(self.repeated)}")
        found = list(self._parts(data))
        reason = next(filter(None, (part.field.misfit(part.data) for part in found)), "")
        return Misfit(reason) if reason else found

    def _parts(self, data: bytes) -> Iterator[Part]:
        at = 0
        for number, field in enumerate(self.fields, 1):
            end = len(data) if field.length is None else at + field.length
            yield Part(field, data[at:end], field.name or f"field {number}")
            at = end
        number = 0
        while self.repeated and at < len(data):
            number += 1
            for field in self.repeated:
                end = at + (field.length or 0)
                yield Part(field, data[at:end], f"{field.name or field.word} of part {number}")
                at = end


def length_of(fields: Iterable[Field]) -> int:
    """How many bytes some fields have in all, without one that has what is left."""
    return sum(field.length or 0 for field in fields)


# ---- the words of a line


def shape_of(given: Sequence[str], most: int, what: str) -> Shape:
    """The shape of some words; `what` is what has it, and has at most `most` bytes."""
    if not given:
        raise UserError(f"shape: the fields of {what} are missing")
    for word in given[:-1]:
        if word.endswith(REPEATED):
            raise UserError(f"{word}: a part that is repeated is the last one")
    last = given[-1]
    if last.endswith(REPEATED):
        repeated = tuple(map(field_of, last.removesuffix(REPEATED).split(",")))
        fields = tuple(map(field_of, given[:-1]))
    else:
        fields, repeated = tuple(map(field_of, given)), ()
    check_fields(fields, repeated)
    length = 0
    for field in fields:
        length += field.length or 0
        if length > most:
            raise UserError(f"{field.word}: with it {what} has {length} bytes; it has at most {most}")
    return Shape(fields, repeated)


def field_of(word: str) -> Field:
    """The field of a word: TYPE or NAME:TYPE, or a word of a list, which says bytes that are always the same."""
    if found := TYPE.fullmatch(word):
        return typed_field("", found, word)
    name, colon, rest = word.partition(":")
    if colon and (found := TYPE.fullmatch(rest)):
        if name in TYPE_WORDS:
            raise UserError(f"{word}: {name} is a type, and no name of a field")
        if not NAME.fullmatch(name):
            raise UserError(f"{word}: the name of a field has letters, digits and _")
        return typed_field(name, found, word)
    if not words.is_text(word) and not (colon and name in OF_WORDS):
        raise UserError(f"{word}: a field is NAME:TYPE or TYPE; a type is {TYPES}")
    data = words.bytes_of(word)
    if not data:
        raise UserError(f"{word}: a field has at least one byte")
    return Field("", FieldKind.FIXED, len(data), word)


def typed_field(name: str, found: re.Match[str], word: str) -> Field:
    sign, bits, of_key, of_bytes, digits = found.groups()
    if sign:
        return Field(name, FieldKind.UNSIGNED if sign == "u" else FieldKind.SIGNED, int(bits) // 8, word)
    if of_key == "key":
        return Field(name, FieldKind.KEY, keys.KEY_LENGTH, word)
    if of_key == "account":
        return Field(name, FieldKind.ACCOUNT, keys.ACCOUNT_LENGTH, word)
    length = numbers.number_of(digits, 1, LONGEST_FIELD, f"the length of {of_bytes}") if digits else None
    return Field(name, FieldKind.TEXT if of_bytes == "text" else FieldKind.BYTES, length, word)


def check_fields(fields: Sequence[Field], repeated: Sequence[Field]) -> None:
    """Refuses a field without a length before another one, and a name that comes twice."""
    names = set[str]()
    for place, field in enumerate([*fields, *repeated], 1):
        is_last = place == len(fields) and not repeated
        if field.length is None and not is_last:
            raise UserError(f"{field.word}: it has all bytes that are left, so it is the last field, and is not repeated")
        if field.name and field.name in names:
            raise UserError(f"{field.word}: another field has this name")
        names.add(field.name)
