"""Whether a program or a package has the program that a checkout builds, or that a release names."""

import hashlib
import re
import struct
from collections.abc import Callable, Iterator, Mapping
from dataclasses import dataclass
from pathlib import Path
from typing import NamedTuple

from rvstm_tools.errors import UserError
from rvstm_tools.releases import archives, parts, products
from rvstm_tools.releases.archives import Link
from rvstm_tools.releases.products import Product, Products

PREFIX = r"(usr|rvstm-[0-9.]+)"
PLACES = {
    re.compile(rf"{PREFIX}/bin/rvstm"): Product.PROGRAM,
    re.compile(rf"{PREFIX}/lib/(.*/)?librvstm\.a"): Product.ARCHIVE,
    re.compile(rf"{PREFIX}/lib/(.*/)?librvstm\.so[0-9.]*"): Product.SHARED,
}
TOOLS = re.compile(rf"{PREFIX}/bin/rvstm-tools")
OF_RELEASE = re.compile(rf"{PREFIX}/(bin/rvstm(-tools)?|(include|lib|share)/.*)", re.DOTALL)  # /bin may lead to /usr/bin
LINKED = re.compile(r"librvstm\.so[0-9.]*")
CHECKSUM = re.compile("[0-9a-f]{64}")
AS_IT_IS, BARE = "bytes as they are", "without symbols and build id"
ELF_HEAD, PROGRAM_HEAD = b"\x7fELF\x02\x01", "<IIQQQQQQ"  # of 64 bits, the lowest byte first
PT_LOAD, PT_NOTE = 1, 4
RVSTM = "rvstm"  # the name of the program in a list of checksums


class ByteSpan(NamedTuple):
    start: int
    end: int


SECTION_FIELDS = (ByteSpan(40, 48), ByteSpan(60, 64))  # of the head of a file: where its table of sections is, and how long it is


class LoadedSegment(NamedTuple):
    kind: int
    span: ByteSpan


@dataclass(frozen=True)
class ProductPart:
    product: Product
    name: str
    data: bytes


@dataclass(frozen=True)
class Comparison:
    text: str
    is_same: bool


def digest(data: bytes) -> str:
    return hashlib.sha256(data).hexdigest()


def segments_of(data: bytes) -> Iterator[LoadedSegment]:
    table, (size, count) = struct.unpack_from("<Q", data, 32)[0], struct.unpack_from("<HH", data, 54)
    for at in range(table, table + size * count, max(size, 1)):
        kind, _, start, _, _, length, _, _ = struct.unpack_from(PROGRAM_HEAD, data, at)
        yield LoadedSegment(kind, ByteSpan(start, start + length))


def is_loaded_so(data: bytes, without: bytes) -> bool:
    """Whether a system loads the same of a program as of its copy without symbols, except notes."""
    segments = list(segments_of(without))
    end = max((segment.span.end for segment in segments if segment.kind == PT_LOAD), default=0)
    views = [bytearray(part[:end]) for part in (data, without)]
    for start, stop in [*SECTION_FIELDS, *(segment.span for segment in segments if segment.kind == PT_NOTE)]:
        for view in views:
            view[start:stop] = bytes(stop - start)
    return views[0] == views[1]


def bare(name: str, data: bytes) -> bytes:
    """The bytes of a program without symbols and build id. A UserError if it is none, or is cut."""
    if not data.startswith(ELF_HEAD):
        raise UserError(f"{name}: NOT a program of 64 bits")
    try:
        without = products.stripped(data)
        is_so = is_loaded_so(data, without)
    except struct.error as error:
        raise UserError(f"{name}: NOT a whole program") from error
    if not is_so:
        raise UserError(f"{name}: NOT what its sections say: other bytes are loaded")
    return without


def parts_of(path: str, data: bytes) -> list[ProductPart]:
    if not archives.is_package(data):
        if not data.startswith(ELF_HEAD):
            raise UserError(f"{path}: neither a program nor a package")
        return [ProductPart(Product.PROGRAM, path, data)]
    try:
        files = archives.files_in(data)
    except UserError as error:
        raise UserError(f"{path}: {error}") from error
    found = []
    for name, file in files.items():
        if not OF_RELEASE.fullmatch(name):
            raise UserError(f"{path}: it has a file, {name}, which no release has")
        product = next((product for place, product in PLACES.items() if place.fullmatch(name)), None)
        if isinstance(file, Link):
            is_library = product is Product.SHARED and LINKED.fullmatch(file.target)
            if not is_library and not (TOOLS.fullmatch(name) and file == parts.TOOLS_LINK):
                raise UserError(f"{path}: it has a link, {name}, which no release has")
        elif product:
            found.append(ProductPart(product, f"{path}, {name}", file.data))
    return found


def parted(came: bytes, right: bytes) -> str:
    at = next((at for at, (one, other) in enumerate(zip(came, right)) if one != other), min(len(came), len(right)))
    return f"{len(came):,} bytes and {len(right):,}; they differ from byte {at:,} on"


def by_building(path: str, data: bytes, built: Products, build: Callable[[Product], None]) -> Iterator[Comparison]:
    """Compares with what a checkout builds. `build` builds a product that is not there."""
    commit, found = built.commit_of_clean("crates", "crates.txt", "HANDLES"), parts_of(path, data)
    if not found:
        raise UserError(f"{path} has no program and no library: compare it with --sums")
    same: list[Product] = []
    for part in found:
        if not built.is_built(part.product):
            build(part.product)
        right = built.built(part.product)
        is_archive = part.product is Product.ARCHIVE
        came, how = (part.data, AS_IT_IS) if is_archive else (bare(part.name, part.data), BARE)
        file = part.product.file
        if came == right:
            same.append(part.product)
            text = f"SAME as {file} by the proof of commit {commit}: {how}, SHA-256 {digest(came)}"
        else:
            text = f"NOT {file} by the proof of commit {commit}: {how}, {parted(came, right)}"
        yield Comparison(f"{part.name}: {text}", came == right)
    for product in dict.fromkeys(same):
        yield Comparison(f"{product.file}: proved is {built.proof_of(product)}", True)


def sums_of(path: str) -> dict[str, str]:
    """The SHA-256 of each file, in hex, by its name. A UserError for another line."""
    rows = [line.split() for line in Path(path).read_text(encoding="ascii", errors="replace").splitlines()]
    if not all(len(row) == 2 and CHECKSUM.fullmatch(row[0]) for row in rows):
        raise UserError(f"{path}: not a file of checksums and names")
    return {name: checksum for checksum, name in rows}


class Entry(NamedTuple):
    name: str
    how: str
    data: bytes
    listed: str


def entries_of(path: str, data: bytes, sums: Mapping[str, str]) -> Iterator[Entry]:
    if archives.is_package(data):
        yield Entry(path, AS_IT_IS, data, Path(path).name)
    for part in parts_of(path, data):
        if part.product is Product.PROGRAM:
            is_listed = digest(part.data) == sums.get(RVSTM)
            how, found = (AS_IT_IS, part.data) if is_listed else (BARE, bare(part.name, part.data))
            yield Entry(part.name, how, found, RVSTM)


def by_sums(path: str, data: bytes, file: str) -> Iterator[Comparison]:
    sums = sums_of(file)
    for entry in entries_of(path, data, sums):
        if entry.listed not in sums:
            raise UserError(f"{file} has no line for {entry.listed}")
        is_same = digest(entry.data) == sums[entry.listed]
        verdict = "SAME as" if is_same else "NOT"
        text = f"{entry.name}: {verdict} {entry.listed} in {file}: {entry.how}, SHA-256 {digest(entry.data)}"
        yield Comparison(text, is_same)
