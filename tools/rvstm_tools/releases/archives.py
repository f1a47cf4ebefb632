"""Archives: tar and tar.gz, whose bytes depend only on what is put in, and the contents of Debian's packages."""

import gzip
import io
import lzma
import posixpath
import tarfile
import zlib
from collections.abc import Iterable, Iterator, Mapping
from dataclasses import dataclass
from pathlib import PurePosixPath
from typing import NamedTuple

from rvstm_tools.errors import UserError

AR_HEAD, AR_MEMBER_HEAD = b"!<arch>\n", 60
AR_MEMBER_FORM = b"%-16s%-12s0     0     100644  %-10s`\n"  # of a name, seconds and a length
GZIP_HEAD = b"\x1f\x8b"
EXECUTABLE, PLAIN = 0o755, 0o644
DEBIAN_MEMBERS = ["debian-binary", "control.tar.xz", "data.tar.xz"]
KINDS = (tarfile.REGTYPE, tarfile.SYMTYPE, tarfile.DIRTYPE)
LONGEST_UNPACKED = 1 << 26  # bytes, many times those of a release; also of the memory that unpacks them


@dataclass(frozen=True)
class File:
    data: bytes
    mode: int = PLAIN


@dataclass(frozen=True)
class Link:
    target: str


Entries = dict[str, File | Link]  # files and links by their paths


class Member(NamedTuple):
    name: str
    data: bytes


def gzip_of(data: bytes) -> bytes:
    """Compressed, with no name and no time."""
    made = io.BytesIO()
    with gzip.GzipFile(filename="", mode="wb", compresslevel=9, fileobj=made, mtime=0) as file:
        file.write(data)
    return made.getvalue()


def folders_of(paths: Iterable[str]) -> set[str]:
    return {str(folder) for path in paths for folder in PurePosixPath(path).parents if str(folder) != "."}


def tar_of(entries: Mapping[str, File | Link], seconds: int) -> bytes:
    """A tar of files and links by their paths: sorted, all of one time, of root."""
    made = io.BytesIO()
    with tarfile.open(fileobj=made, mode="w", format=tarfile.GNU_FORMAT) as tar:
        for path in sorted(folders_of(entries) | set(entries)):
            entry, info = entries.get(path), tarfile.TarInfo(path)
            info.mtime, info.uname, info.gname, info.mode = seconds, "root", "root", EXECUTABLE
            data = None
            if isinstance(entry, File):
                info.size, info.mode, data = len(entry.data), entry.mode, io.BytesIO(entry.data)
            elif entry:
                info.type, info.linkname, info.mode = tarfile.SYMTYPE, entry.target, 0o777
            else:
                info.type = tarfile.DIRTYPE
            tar.addfile(info, data)
    return made.getvalue()


def ar_members(data: bytes) -> Iterator[Member]:
    """The members of an archive of ar, whose headers are as dpkg-deb writes them."""
    at = len(AR_HEAD)
    while at < len(data):
        head, body = data[at : at + AR_MEMBER_HEAD], at + AR_MEMBER_HEAD
        name, seconds, length = (field.rstrip(b" ") for field in (head[:16], head[16:28], head[48:58]))
        if head != AR_MEMBER_FORM % (name, seconds, length) or not (seconds + length).isdigit():
            raise UserError("it is a damaged archive of ar")
        end = body + int(length)
        if data[end : end + int(length) % 2].strip(b"\n") or len(data) < end:
            raise UserError("it is a damaged archive of ar")
        yield Member(name.decode("ascii", "replace"), data[body:end])
        at = end + int(length) % 2


def is_package(data: bytes) -> bool:
    return data.startswith((AR_HEAD, GZIP_HEAD))


def unpacked(data: bytes, unpacker: "zlib._Decompress | lzma.LZMADecompressor") -> bytes:
    """What was compressed, in one piece: some programs also read what follows it."""
    found = unpacker.decompress(data, LONGEST_UNPACKED)
    if not unpacker.eof or unpacker.unused_data:
        raise UserError(f"its files are cut, are followed by something, or have more than {LONGEST_UNPACKED:,} bytes")
    return found


def entries_of_tar(tar: bytes) -> Iterator[tuple[tarfile.TarInfo, bytes]]:
    """The entries of a tar, each with its content. All programs find the same: a header has exactly the bytes that GNU's tar
    writes for it, and only zeros follow a content and the last entry."""
    at = 0
    while (head := tar[at : at + tarfile.BLOCKSIZE]).strip(b"\0"):
        info, start = tarfile.TarInfo.frombuf(head, "utf-8", "surrogateescape"), at + tarfile.BLOCKSIZE
        end = start + info.size
        at = end + -info.size % tarfile.BLOCKSIZE
        if info.tobuf(tarfile.GNU_FORMAT, "utf-8") != head or info.size < 0 or tar[end:at].strip(b"\0"):
            raise UserError(f"the entry {info.name!a} of its tar is not as GNU's tar writes it")
        yield info, tar[start:end]
    if len(tar) < at + 2 * tarfile.BLOCKSIZE or tar[at:].strip(b"\0"):
        raise UserError("its tar does not end with zeros")


def files_of_tar(tar: bytes) -> Entries:
    """The files and links of a tar by their paths. Everything else is a folder."""
    found: Entries = {}
    folders: set[str] = set()
    for info, content in entries_of_tar(tar):
        path = info.name.removeprefix("./")
        if path != posixpath.normpath(path) or path.split("/")[0] in ("", ".."):
            raise UserError(f"{info.name!a} is a path that no release has")
        if path in found or info.type not in KINDS or len(content) and not info.isreg():
            raise UserError(f"{path} is there twice, or is neither a file nor a link")
        if info.isdir():
            folders.add(path)
        else:
            found[path] = File(content, info.mode) if info.isreg() else Link(info.linkname)
    if (folders | folders_of(found)) & found.keys():
        raise UserError("it has a path that is a folder and a file")
    return found


def files_of_release(data: bytes) -> Entries:
    """The files of a tar.gz. A UserError if a release would make another of them."""
    tar = unpacked(data, zlib.decompressobj(zlib.MAX_WBITS | 16))
    found = files_of_tar(tar)
    if tar != tar_of(found, next((info.mtime for info, _ in entries_of_tar(tar)), 0)):
        raise UserError("its tar is not the one that a release makes of its files")
    return found


def files_of_debian(data: bytes) -> Entries:
    """The files of a package. A UserError if it has other members than those of a release."""
    members = list(ar_members(data))
    if [member.name for member in members] != DEBIAN_MEMBERS or members[0].data != b"2.0\n":
        raise UserError("it is an archive of ar, and not a package of Debian as a release has it")
    _, found = [files_of_tar(unpacked(member.data, lzma.LZMADecompressor(lzma.FORMAT_XZ, LONGEST_UNPACKED))) for member in members[1:]]
    return found


def files_in(data: bytes) -> Entries:
    """The files and links of a package of Debian or of a tar.gz, by their paths."""
    try:
        return files_of_debian(data) if data.startswith(AR_HEAD) else files_of_release(data)
    except (tarfile.TarError, lzma.LZMAError, zlib.error, ValueError) as error:
        raise UserError(f"its files cannot be read: {error}") from error
