"""Random sessions of `rvstm chain`: frames, tries, hostile bodies, programs, beginnings, broken and cut inputs."""

import re
from collections.abc import Iterator, Sequence
from dataclasses import dataclass
from pathlib import Path
from random import Random

from rvstm_developers import texts
from rvstm_developers.models.sessions import HIGHEST
from rvstm_tools.sessions import frames, requests
from rvstm_tools.sessions.processes import LONGEST_FRAME, Settings
from rvstm_tools.sessions.requests import WITH_BODY, Request, Word
from rvstm_tools.texts.blocks import MOST_CALLS
from rvstm_tools.texts.keys import Key, Storage

MOST_REQUESTS = 14
MOST_OTHER_KEYS = 300
GAS = re.compile(rb"^call [0-9]+ ([0-9]{1,8}) ", re.M)
ODD_HEADS = (b"rvblock\n", b"rvblock 3\n", b"rvblock 1 \n", b"rvblockade\n")
BAD_LINES = (b"call 9 1 -\n", b"call 0 0 -\n", b"call 0 1 0\n", b"store 00 00\n", b"dump\n", b"gas 4\n", b"end\n", b"q\n", b"frame 0\n")
FILES = (b"/bin/true", b"/dev/stdin", b"/dev/null", b"/proc/self/exe", b".", b"missing/a.elf", b"/dev/stdout", b"00" * 32, b"AB" * 32)
HOSTILE = (b"end\n", b"q\n", b"dump\n", b"frame 0\n", b"\0", b"\r\n", b"frame 10\nrvblock 1\n", b"rvblock 1\n", b"state\n", b"\xff")
BROKEN = (
    b"\n", b"frame 0100\n", b"frame 5 \n", b"frame 5\r\n", b"Frame 5\n", b"frame  5\n", b" frame 5\n", b"frame\n", b"frame -1\n",
    b"frame +1\n", b"frame 18446744073709551616\n", b"frame 10000000000\n", b"try 00\n", b"program\n", b"program 1 x\n", b"get 00\n",
    b"get %s\n" % (b"AB" * 32), b"get %s\n" % (b"0" * 63), b"get %s\n" % (b"0" * 65), b"get\n", b"list %s 0\n" % (b"00" * 32),
    b"list %s 1025\n" % (b"00" * 32), b"list %s 01\n" % (b"00" * 32), b"list %s\n" % (b"00" * 32), b"begin 0 0\n", b"begin 0 -\n",
    b"begin 0 - 00\n", b"begin 10000000000 - 0\n", b"begin 0 -- 0\n", b"dump \n", b"dumps\n", b"dump\r\n", b"q \n", b"quit\n", b"Q\n",
    b"state 1\n", b"last\0\n", b"\0\n", b"\xff\xfe\n", b"x" * 127 + b"\n", b"x" * 128 + b"\n", b"0" * 128, b"x" * 4096, b"dump", b"q",
    b"frame 9999999999", b"forget %s \n" % (b"00" * 32), b"rvblock 1\n", b"what\n", b"end\n", b"ok 0\n",
)
"""Each ends a session."""
LIES = (
    b"frame 9999999999\n", b"try 9999999999\n", b"program 9999999999\n", b"begin 9999999999 - 9999999999\n", b"frame 4294967296\n",
    b"program 131073\n", b"program 131072\n", b"try 1\n", b"frame 67108865\n",
)
"""Less follows each than it says."""
LOWEST_KEY, HIGHEST_KEY = Key(bytes(32)), Key(b"\xff" * 32)


@dataclass(frozen=True)
class DrawnSession:
    requests: list[Request]
    settings: Settings


def settings_of(choice: Random, asked: Sequence[Request], keeps_digest: bool, workers: int | None) -> Settings:
    """Random settings for some requests: mostly no bounds, otherwise such that a frame just fits or does not."""
    blocks = [request.body for request in asked if request.word in (Word.FRAME, Word.TRY)] or [b""]
    limits = (LONGEST_FRAME,) * 8 + (0, 300, 5_000, HIGHEST) + (len(choice.choice(blocks)),) * 2
    gas = (None,) * 8 + (0, 50_000, 1_000_000, HIGHEST) + (gas_of(choice.choice(blocks)),) * 2
    below = choice.randrange(2)
    limit, most = max(choice.choice(limits) - below, 0), choice.choice(gas)
    most = most if most is None else max(most - below, 0)
    return Settings(limit, most, keeps_digest, choice.randrange(3) == 0, workers)


def gas_of(block: bytes) -> int:
    """The gas limits of the calls of a block file together, as far as it has them."""
    return sum(int(gas) for gas in GAS.findall(block)) % 10**10


def bad_block(choice: Random, block: bytes) -> bytes:
    """A frame that is mostly refused: for its text, its rules or its programs."""
    lines = frames.lines_of(block)
    place = choice.randrange(len(lines))
    kind = choice.randrange(9)
    if kind == 0:
        lines[0] = choice.choice(ODD_HEADS)
    elif kind == 1:
        del lines[max(place, 1) :]
        lines.append(choice.choice(BAD_LINES))
    elif kind == 2:
        lines.insert(place, choice.choice(lines))
    elif kind in (3, 4):
        path = choice.choice((*FILES, __file__.encode()))
        lines = [b"program 0 %s\n" % path if line.startswith(b"program 0 ") else line for line in lines]
    elif kind == 5:
        lines[-1] = lines[-1].removesuffix(b"\n")
    elif kind == 6:
        calls = [line for line in lines if line.startswith(b"call ")]
        lines += calls * (MOST_CALLS // len(calls) + 1)
    elif kind == 7:
        lines[place] = lines[place][:-1] + b"\r\n"
    else:
        lines[0] = b"rvblock 1\n"
        lines[1:2] = [] if lines[1].startswith(b"gas ") else lines[1:2]
    return b"".join(lines)


def hostile_body(choice: Random, block: bytes) -> bytes:
    """A body that has requests in it: after a block, before it or within it."""
    parts = [choice.choice(HOSTILE) for _ in range(choice.randrange(1, 6))]
    parts.insert(choice.randrange(len(parts) + 1), choice.choice((block, b"")))
    return b"".join(parts)


def wide_block(choice: Random, block: bytes) -> bytes:
    """A block; a sixth of them have many other keys, between those of the calls."""
    other: Storage = {}
    if choice.randrange(6) == 0:
        for _ in range(choice.randrange(MOST_OTHER_KEYS)):
            key = Key(bytes([choice.randrange(4)]) + choice.randbytes(31))
            other[key] = choice.randbytes(choice.choice((1, 8, 17, 64)))
    return frames.put_over(block, other)


class RandomSession:
    """The requests of a session as it is made. Its frames come from blocks whose programs are in a folder."""

    def __init__(self, choice: Random, blocks: Iterator[bytes], keys: Sequence[Key], folder: Path) -> None:
        self.choice, self.blocks, self.keys, self.folder = choice, blocks, keys, folder
        self.keeps_digest, self.most_rules = choice.randrange(2) == 0, choice.randrange(1, 4)
        self.rules = 1
        self.files: dict[str, bytes] = {}
        self.given: set[str] = set()  # the names of the programs that the session has
        self.requests: list[Request] = []

    def add(self, word: bytes, *fields: bytes, body: bytes = b"") -> None:
        self.requests.append(Request(word, fields, body))

    def next_block(self) -> bytes:
        """The next block with names, so that rules mostly do not fall. Most of its programs are handed in."""
        for block in self.blocks:
            rules = frames.rules_of(block)
            if self.rules <= rules <= self.most_rules or rules < self.rules and self.choice.randrange(8) == 0:
                break
        self.rules = max(self.rules, rules)
        named = frames.named(block, self.folder)
        self.files |= named.files
        for name, file in named.files.items():
            if name not in self.given and self.choice.randrange(12):
                self.given.add(name)
                self.add(Word.PROGRAM, body=file)
        return wide_block(self.choice, named.block)

    def add_frames(self) -> None:
        block, frame, attempt = self.next_block(), Word.FRAME, Word.TRY
        for word in self.choice.choice(((frame,),) * 3 + ((attempt, frame), (frame, attempt), (attempt,), (frame, frame))):
            self.add(word, body=block)
            if self.choice.randrange(6) == 0:
                self.add_question()

    def add_bad_frame(self) -> None:
        make = self.choice.choice((bad_block, bad_block, hostile_body))
        body = make(self.choice, self.next_block())
        body = self.choice.choice((body,) * 6 + (b"", b"\n", b"rvblock 1", b"rvblock 1\n", b"rvblock 2\n", self.choice.randbytes(40)))
        for word in self.choice.choice(((Word.FRAME,), (Word.TRY,), (Word.TRY, Word.FRAME))):
            self.add(word, body=body)

    def add_question(self) -> None:
        word = self.choice.choice((Word.GET, Word.LIST, Word.DUMP, Word.STATE, Word.LAST, Word.PROGRAMS))
        key = requests.key_field(self.choice.choice((*self.keys, *self.keys, LOWEST_KEY, HIGHEST_KEY, self.choice.randbytes(32))))
        count = self.choice.choice((1, 2, 3, 1023, 1024, self.choice.randrange(1, 1025)))
        fields = {Word.GET: (key,), Word.LIST: (key, b"%d" % count)}
        self.add(word, *fields.get(word, ()))

    def add_program(self) -> None:
        """Adds a program that is here already, or forgotten, or one that is none."""
        names = [*self.files]
        kind = self.choice.randrange(5)
        if kind < 2 and names:
            name = self.choice.choice(names)
            self.given.discard(name)
            self.add(Word.FORGET, name.encode())
        elif kind == 2 and names:
            name = self.choice.choice(names)
            self.given.add(name)
            self.add(Word.PROGRAM, body=self.files[name])
        elif kind == 3:
            self.add(Word.FORGET, self.choice.choice((b"00" * 32, b"ff" * 32)))
        else:
            self.add(Word.PROGRAM, body=self.no_program())

    def no_program(self) -> bytes:
        file = bytearray(self.choice.choice([*self.files.values(), b"\x7fELF", b""]))
        if file and self.choice.randrange(2):
            file[self.choice.randrange(min(len(file), 100))] ^= 1 << self.choice.randrange(8)
        else:
            del file[self.choice.randrange(len(file) + 1) :]
        return self.choice.choice((bytes(file),) * 8 + (bytes(131_072), bytes(131_073), bytes(file).ljust(131_072, b"\0")))

    def add_begin(self) -> None:
        """Adds a beginning: mostly by a dump; a few have another text, or a digest that does not fit."""
        rules, most = self.choice.randrange(1, 4), self.choice.choice((2, 20))
        store = {key: self.choice.randbytes(8) for key in self.choice.sample(self.keys, self.choice.randrange(len(self.keys)))}
        for _ in range(self.choice.randrange(most)):
            length = self.choice.choice((1, 8, 64, 65, 256)) if rules > 1 or self.choice.randrange(6) == 0 else 8
            store[Key(self.choice.randbytes(32))] = self.choice.randbytes(length)
        text = frames.dump_of(rules, store)
        if rules == 1 and self.choice.randrange(3) == 0:
            text = texts.HEADS[0].encode() + frames.store_lines(store)
        if self.choice.randrange(4) == 0:
            text = self.choice.choice((bad_block(self.choice, self.next_block()), self.next_block(), b"", text[:-1], text + b"end\n"))
        else:
            self.rules = rules
        fits = self.choice.randrange(6) != 0
        digest = self.choice.randbytes(32) if self.keeps_digest == fits else None
        height = self.choice.choice((0, 1, self.choice.randrange(10**10), HIGHEST - 1, HIGHEST))
        self.requests.append(requests.begin(height, digest, text))

    def fill(self) -> "RandomSession":
        for _ in range(self.choice.randrange(1, MOST_REQUESTS + 1)):
            kinds = [self.add_frames] * 5 + [self.add_bad_frame] * 2 + [self.add_question] * 4 + [self.add_program] * 2 + [self.add_begin]
            self.choice.choice(kinds)()
        return self


def lying(choice: Random, text: bytes, place: int) -> bytes:
    """An input whose line at a place says one byte more or less than there are, or many more."""
    end = text.find(b"\n", place)
    *words, length = text[place:end].split(b" ")
    if words[:1] not in [[word] for word in WITH_BODY]:
        return text
    lie = choice.choice((int(length) + 1, max(int(length) - 1, 0), 0, int(length) * 3 + 7, HIGHEST))
    return text[:place] + b" ".join((*words, b"%d" % lie)) + text[end:]


def input_of(choice: Random, asked: Sequence[Request]) -> bytes:
    """A random input of some requests: half of them are sound, the others broken, cut or with lengths that lie."""
    parts = [request.text() for request in asked]
    place = choice.randrange(len(parts) + 1)
    kind = choice.randrange(10)
    if kind == 0:
        parts.insert(place, b"q\n")
    elif kind == 1:
        parts.insert(place, choice.choice(BROKEN))
    elif kind == 2:
        parts.append(choice.choice((*BROKEN, *LIES)))
    whole = b"".join(parts)
    if kind == 3:
        return lying(choice, whole, len(b"".join(parts[: choice.randrange(len(parts))])))
    if kind == 4:
        return whole[: choice.randrange(len(whole))]
    return whole + choice.choice((b"", b"", b"q\n", b"q\nwhat", b"q\n" + parts[0]))


def session_of(choice: Random, blocks: Iterator[bytes], keys: Sequence[Key], folder: Path, workers: int | None = None) -> DrawnSession:
    made = RandomSession(choice, blocks, keys, folder).fill()
    return DrawnSession(made.requests, settings_of(choice, made.requests, made.keeps_digest, workers))
