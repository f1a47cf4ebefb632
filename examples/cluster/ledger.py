"""What a cluster has in etcd, and the order of its blocks.

    /log/ANYTHING          a block: the bytes of a frame
    /last                  the key of the block that was appended last
    /programs/SHA256       the file of a program
    /digests/NODE/HEIGHT   the digest of a node's session at a multiple of 100; HEIGHT has ten digits
    /newest/NODE           its newest height, and the digest there
    /alive/NODE            there while the node runs, by a lease
    /trimmed               the head of the dump after which the log begins

The blocks are in the order of the revisions at which their keys were made, then of the keys. Every value is a block: if
it has no form of one, all sessions refuse it alike. NODE is [a-z0-9]+; other keys count for nothing.
"""

import hashlib
import json
import re
import secrets
import sys
from collections.abc import Callable, Iterable, Iterator, Sequence
from dataclasses import dataclass
from pathlib import Path
from typing import NamedTuple

sys.path.append(str(Path(__file__).resolve().parents[2] / "tools"))
from rvstm_tools.errors import UserError
from rvstm_tools.sessions import frames
from rvstm_tools.texts.blocks import MOST_PROGRAMS

import etcd
from etcd import Etcd, Pair

LOG, LAST, PROGRAMS, TRIMMED = b"/log/", b"/last", b"/programs/", b"/trimmed"
DIGESTS, NEWEST, ALIVE = b"/digests/", b"/newest/", b"/alive/"
NAME, DIGEST = re.compile("[a-z0-9]+"), re.compile(rb"[0-9a-f]{64}")
SAID = re.compile(rb"(0|[1-9][0-9]{0,9}) ([0-9a-f]{64})")
PROGRAM = re.compile(rb"^program [0-9]+ ([0-9a-f]{64})$", re.M)
LONGEST = 1_000_000  # bytes of a block or a program: etcd refuses requests above 1.5 MiB
PAIRS_A_READ, KEYS_A_DELETION, SECONDS_OF_QUIET = 16, 100, 1
Said = tuple[int, str]  # the height of a node's session, and the digest there


def digest_key(name: str, height: int) -> bytes:
    return DIGESTS + f"{name}/{height:010d}".encode()


def said_in(pairs: Iterable[Pair]) -> tuple[dict[str, Said], set[bytes]]:
    """What nodes say is the newest, by their names, and the keys that have another form."""
    said, strange = dict[str, Said](), set[bytes]()
    for pair in pairs:
        name, form = pair.key.removeprefix(NEWEST).decode("latin-1"), SAID.fullmatch(pair.value)
        if form and NAME.fullmatch(name):
            said[name] = int(form[1]), form[2].decode()
        else:
            strange.add(pair.key)
    return said, strange


class Place(NamedTuple):
    """The height of a block, and the revision and the key by which it is in the log."""

    height: int = 0
    revision: int = 0
    key: bytes = b""


@dataclass(frozen=True)
class Dump:
    """A storage, its place in the log, and the digest of the session there."""

    place: Place
    digest: str
    storage: bytes

    def text(self) -> bytes:
        """A line of JSON, then the storage."""
        head = {"height": self.place.height, "digest": self.digest, "sha256": hashlib.sha256(self.storage).hexdigest()}
        head |= {"revision": self.place.revision, "key": self.place.key.hex()}
        return json.dumps(head).encode() + b"\n" + self.storage


def place_in(text: bytes) -> Place:
    """The place of a dump, or of its head."""
    try:
        head = json.loads(text.partition(b"\n")[0])
        return Place(int(head["height"]), int(head["revision"]), bytes.fromhex(head["key"]))
    except (ValueError, KeyError, TypeError) as error:
        raise UserError(f"not the head of a dump: {text[:100]!r}") from error


def dump_in(path: Path) -> Dump:
    """The dump of a file. One that was changed is refused."""
    text = path.read_bytes()
    place, (head, _, storage) = place_in(text), text.partition(b"\n")
    dump = Dump(place, str(json.loads(head).get("digest")), storage)
    if dump.text() != text or not DIGEST.fullmatch(dump.digest.encode()):
        raise UserError(f"{path}: a head with another SHA-256, or without a digest")
    return dump


class Log:
    def __init__(self, client: Etcd) -> None:
        self.client = client

    def append(self, block: bytes) -> int:
        """Appends a block, and returns its revision. After a lost answer its key shows whether it is there."""
        key = LOG + secrets.token_hex(16).encode()
        while True:
            last = self.client.read(LAST)
            compare = [etcd.is_at(LAST, last.changed if last else 0), etcd.is_at(key, 0)]
            reply = self.client.transact(compare, [etcd.put(LAST, key), etcd.put(key, bounded(block))])
            if reply.is_done:
                return reply.revision
            if found := self.client.read(key):
                return found.made

    def put_program(self, file: bytes) -> None:
        key = PROGRAMS + frames.name_of(file).encode()
        self.client.transact([etcd.is_at(key, 0)], [etcd.put(key, bounded(file))])

    def programs(self, block: Pair, known: set[bytes]) -> Iterator[tuple[bytes, bytes]]:
        """The names and files of programs that a block names, but for known ones. One that was put after the block is
        none: all nodes find the same, whenever they run it. A block that names too many is refused without them."""
        names = set(PROGRAM.findall(block.value))
        for name in sorted(names - known) if len(names) <= MOST_PROGRAMS else ():
            found = self.client.read(PROGRAMS + name)
            if found and found.made < block.made and frames.name_of(found.value).encode() == name:
                yield name, found.value

    def after(self, height: int) -> tuple[int, Place, list[Place]]:
        """Etcd's revision, the place at a height, and all after it. A height that is not in the log is an error."""
        reply = self.client.transact([], [etcd.get(etcd.one(TRIMMED)), etcd.get(etcd.below(LOG), keys_only=True)])
        trimmed, pairs = reply.read
        begin = place_in(trimmed[0].value) if trimmed else Place()
        later = sorted((pair.made, pair.key) for pair in pairs if (pair.made, pair.key) > (begin.revision, begin.key))
        places = [begin, *(Place(number, *one) for number, one in enumerate(later, begin.height + 1))]
        at, last = height - begin.height, places[-1].height
        if not begin.height <= height <= last:
            raise UserError(f"the session is at height {height}, and the log goes from {begin.height} to {last}")
        return reply.revision, places[at], places[at + 1 :]

    def read(self, places: Sequence[Place]) -> Iterator[list[Pair]]:
        """The blocks at some places, which nobody may have removed or changed."""
        for start in range(0, len(places), PAIRS_A_READ):
            some = places[start : start + PAIRS_A_READ]
            found = self.client.transact([], [etcd.get(etcd.one(place.key)) for place in some]).read
            pairs = [pair for one in found for pair in one]
            if [(pair.made, pair.changed) for pair in pairs] != [(place.revision, place.revision) for place in some]:
                raise UserError(f"a block of the heights {some[0].height} to {some[-1].height} was removed or changed")
            yield pairs

    def batches(self, height: int, say: Callable[[str], None]) -> Iterator[list[Pair]]:
        """The blocks after a height in their order, as they come; an empty list if none came for a second."""
        while True:
            revision, _, places = self.after(height)
            height += len(places)
            yield from self.read(places)
            try:
                while True:
                    for pairs in self.client.watch(LOG, revision + 1, SECONDS_OF_QUIET):
                        new = [pair for pair in pairs if pair.made == pair.changed]
                        revision, height = pairs[-1].changed, height + len(new)
                        yield sorted(new, key=lambda pair: (pair.made, pair.key))
                    yield []
            except etcd.CompactedError as error:
                say(f"{error}: reads the log again")

    def trim(self, dump: Dump) -> int:
        """Removes the blocks up to a dump, compacts etcd, and returns how many were removed. It may be made again."""
        place = dump.place
        if self.after(place.height)[1] != place:
            raise UserError(f"the log has another block at height {place.height} than the dump")
        mark = etcd.put(TRIMMED, dump.text().partition(b"\n")[0])
        reply = self.client.transact([], [mark, etcd.get(etcd.below(LOG), keys_only=True)])
        gone = [pair.key for pair in reply.read[0] if (pair.made, pair.key) <= (place.revision, place.key)]
        for start in range(0, len(gone), KEYS_A_DELETION):
            some = gone[start : start + KEYS_A_DELETION]
            reply = self.client.transact([], [etcd.delete(etcd.one(key)) for key in some])
        self.client.ask("kv/compaction", {"revision": reply.revision})
        return len(gone)


def bounded(data: bytes) -> bytes:
    if len(data) > LONGEST:
        raise UserError(f"a block or a program has at most {LONGEST:,} bytes, and this one has {len(data):,}")
    return data
