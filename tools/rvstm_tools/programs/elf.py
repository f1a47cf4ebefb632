"""Programs in ELF files of 32 bits: what they load, and their functions."""

import bisect
import re
import struct
from collections.abc import Iterator
from pathlib import Path
from typing import NamedTuple

from rvstm_tools.errors import UserError

PT_LOAD, PF_X, SHT_SYMTAB, SHF_EXECINSTR, STT_NOTYPE, STT_FUNC, STB_GLOBAL = 1, 1, 2, 4, 0, 2, 1
SYMBOL_SIZE = 16
MOST_SEGMENTS, LONGEST_NAME = 8, 4096  # program headers, as rvstm takes them; bytes of a name
NO_CODE = "no code"
# Names in Rust: how a symbol begins, how each ends that no tool made plain, and the signs in it.
RUST_SYMBOL, RUST_NAME, RUST_SIGN = re.compile("_ZN([0-9].*)E"), re.compile("(.+)::h[0-9a-f]{16}"), re.compile(r"\$(\w+)\$")
RUST_SIGNS = {"LT": "<", "GT": ">", "RF": "&", "BP": "*", "C": ",", "LP": "(", "RP": ")", "SP": "@"}
RUST_LENGTH, RUST_CODE = re.compile("[0-9]{1,9}"), re.compile("u[0-9a-f]{1,5}")


class Segment(NamedTuple):
    """A segment that is loaded: its address, its rights, how many bytes it has in memory, and its bytes in the file."""

    address: int
    rights: int
    in_memory: int
    data: bytes

    @property
    def is_code(self) -> bool:
        return bool(self.rights & PF_X)


class Function(NamedTuple):
    address: int
    size: int
    symbol: str


class Section(NamedTuple):
    kind: int
    flags: int
    offset: int
    size: int
    link: int


class ElfFile:
    def __init__(self, path: str) -> None:
        self.path = path
        self.data = Path(path).read_bytes()
        try:
            self.segments = list(self._loaded())
            self.functions = sorted(self._named())
        except (struct.error, IndexError) as error:
            raise UserError(f"{path}: not an ELF file of 32 bits, or only a part of one") from error

    def _headers(self, form: str, place: int, sizes: int) -> Iterator[tuple[int, ...]]:
        """The rows of one of the two tables of headers. All of it is in the file, so that their number is bounded."""
        (start,) = struct.unpack_from("<I", self.data, place)
        size, count = struct.unpack_from("<HH", self.data, sizes)
        table = self.data[start : start + size * count]
        if start and count and (size != struct.calcsize(form) or len(table) < size * count):
            raise IndexError("a table of headers is wrong, or not whole")
        return struct.iter_unpack(form, table if start else b"")

    def _loaded(self) -> Iterator[Segment]:
        for number, header in enumerate(self._headers("<8I", 28, 42)):
            kind, offset, address, _, in_file, in_memory, rights, _ = header
            if number == MOST_SEGMENTS:
                raise IndexError("too many program headers")
            if kind == PT_LOAD:
                yield Segment(address, rights, in_memory, self.data[offset : offset + in_file])

    def _sections(self) -> list[Section]:
        rows = self._headers("<10I", 32, 46)
        found = [Section(kind, flags, offset, length, link) for _, kind, flags, _, offset, length, link, *_ in rows]
        if [section.kind for section in found].count(SHT_SYMTAB) > 1:
            raise IndexError("two tables of symbols")
        return found

    def _named(self) -> Iterator[Function]:
        """The functions: symbols of this type, and global labels in code."""
        sections = self._sections()
        for table in sections:
            if table.kind != SHT_SYMTAB:
                continue
            names = sections[table.link].offset
            for at in range(table.offset, table.offset + table.size, SYMBOL_SIZE):
                name, address, size, info, _, section = struct.unpack_from("<IIIBBH", self.data, at)
                is_label = info & 15 == STT_NOTYPE and info >> 4 == STB_GLOBAL
                in_code = section < len(sections) and sections[section].flags & SHF_EXECINSTR
                if in_code and (info & 15 == STT_FUNC or is_label):
                    yield Function(address, size, self._text_at(names + name))

    def _text_at(self, place: int) -> str:
        name, end, _ = self.data[place : place + LONGEST_NAME].partition(b"\0")
        if not end and len(name) < LONGEST_NAME:
            raise IndexError("a name has no end")
        return name.decode(errors="backslashreplace")

    def is_code(self, address: int) -> bool:
        return any(part.is_code and part.address <= address < part.address + part.in_memory for part in self.segments)

    def function_at(self, address: int) -> str:
        """The name of the function there; that of the file if it names none."""
        if not self.is_code(address):
            return NO_CODE
        place = bisect.bisect(self.functions, address, key=lambda function: function.address) - 1
        if place >= 0:
            start, size, symbol = self.functions[place]
            if not size or address < start + size:
                return plain_name(symbol)
        return Path(self.path).name

    def words(self) -> dict[int, int]:
        """The words of the code by their addresses."""
        return {
            part.address + at: int.from_bytes(part.data[at : at + 4], "little")
            for part in self.segments
            if part.is_code
            for at in range(0, len(part.data) - 3, 4)
        }


def plain_name(name: str) -> str:
    """A function in Rust as its source has it; a function in another language by the name that it has."""
    symbol = RUST_SYMBOL.fullmatch(name)
    parts: list[str] = []
    rest = symbol[1] if symbol else ""
    while length := RUST_LENGTH.match(rest):
        end = length.end() + int(length[0])
        parts.append(rest[length.end() : end])
        rest = rest[end:]
    found = RUST_NAME.fullmatch("::".join(parts) if parts and not rest else name)
    if not found:
        return name
    text = re.sub(r"(^|::)_\$", r"\1$", found[1]).replace("..", "::")
    return RUST_SIGN.sub(sign_of, text)


def sign_of(found: re.Match[str]) -> str:
    """A sign in a name in Rust, by its letters or its number."""
    letters = found[1]
    return chr(int(letters[1:], 16)) if RUST_CODE.fullmatch(letters) else RUST_SIGNS.get(letters, found[0])
