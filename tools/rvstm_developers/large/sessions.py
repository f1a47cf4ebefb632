"""Sessions of `rvstm chain` that have as much of something as the rules allow, or much of what they do not limit, and what a
session has to answer, by calls in Python and without rvstm."""

import functools
from collections.abc import Callable, Iterable
from dataclasses import dataclass
from pathlib import Path

from rvstm_developers import texts
from rvstm_developers.large import blocks as large_blocks
from rvstm_developers.large.blocks import COUNT, LAST, LONGEST_PROGRAM, MOST_GAS, MOST_PROGRAMS, count, each
from rvstm_developers.models import sessions
from rvstm_developers.models.machine import MachineBlock, MachineProgram
from rvstm_developers.models.sessions import Left, Ran
from rvstm_tools.debugging.charges import StorageCall
from rvstm_tools.programs import running
from rvstm_tools.sessions import answers, frames, requests
from rvstm_tools.sessions.answers import Answer, Done, Refusal
from rvstm_tools.sessions.processes import LONGEST_FRAME, Settings
from rvstm_tools.sessions.requests import Request, Word, key_field
from rvstm_tools.texts import blocks, results
from rvstm_tools.texts.blocks import CallLine
from rvstm_tools.texts.keys import Storage, numbered_key

QUESTIONS = [Request(word) for word in (Word.STATE, Word.PROGRAMS, Word.LAST, Word.DUMP)]
QUESTIONS += [Request(Word.LIST, (key_field(numbered_key(0)), b"1024")), Request(Word.GET, (key_field(numbered_key(1)),))]
FRAME_KEYS, DUMP_KEYS, REQUESTS, SESSION_PROGRAMS = 100_000, 100_000, 10_000, 1_000
Parts = list[list[Request]]  # A session in parts. A file keeps it from part to part.


@dataclass(frozen=True)
class SessionMaker:
    parts: int
    make: Callable[[], Parts]


@dataclass(frozen=True)
class Exchange:
    text: bytes
    answers: bytes


class LargeSessionModel(sessions.SessionModel):
    """A session whose frames run in Python. Its programs are these, and its block files are sound but for what a request says."""

    def __init__(self, settings: Settings, programs: Iterable[MachineProgram]) -> None:
        super().__init__(running.Program(Path("rvstm")), settings)  # which does not run
        self.made = {frames.name_of(program.file): program for program in programs}

    def text_fault(self, block: bytes) -> Refusal | None:
        """None: the texts are sound."""
        return None

    def answer_program(self, file: bytes) -> Answer:
        name = frames.name_of(file)
        if len(file) > LONGEST_PROGRAM:
            return answers.refused(b"file TooLong 3")
        self.programs.add(name)
        (self.folder / name).touch()
        return Done(f"{name}\n".encode())

    def run(self, block: bytes) -> Ran:
        fault = self.fault_of(block)
        if fault:
            return Ran(fault)
        fields = [line.split() for line in frames.lines_of(block) if not line.startswith(b"store ")]
        programs = [self.made[field[2].decode()] for field in fields if field[0] == b"program"]
        calls = [CallLine(int(field[1]), int(field[2]), results.bytes_of(field[3].decode())) for field in fields if field[0] == b"call"]
        stored = self.store | frames.stored_in(block)
        made = MachineBlock(programs, calls, stored, frames.rules_of(block))
        answer = f"{made.receipts_text(self.settings.brief)}end\n".encode()
        return Ran(Done(answer), Left(made.rules, made.storage()))


# ---- requests


def program(made: MachineProgram) -> Request:
    return Request(Word.PROGRAM, (), made.file)


def framed(block: MachineBlock, word: Word = Word.FRAME) -> Request:
    names = [frames.name_of(made.file) for made in block.programs]
    return Request(word, (), block.text(names))


def asked(*blocks: MachineBlock) -> list[Request]:
    return [program(made) for block in blocks for made in block.programs] + [framed(block) for block in blocks]


def keys_of(count_of_keys: int, length: int) -> Storage:
    return {numbered_key(number): large_blocks.filled(length, number) for number in range(count_of_keys)}


def begun(store: Storage, rules: int) -> Request:
    dump = texts.head_of(rules) if rules > 1 else texts.HEADS[1]
    return requests.begin(7, bytes(32), (dump + "".join(blocks.store_lines(store))).encode())


def programs_of(number: int) -> list[MachineProgram]:
    return [MachineProgram(COUNT.source, large_blocks.filled(8, each_one)) for each_one in range(number)]


# ---- sessions


def of_many_entries() -> Parts:
    """100,000 entries in one frame, which writes some of them, and in the calls of another one."""
    entries = MachineBlock([COUNT], [count(1), count(FRAME_KEYS)], keys_of(FRAME_KEYS, 8))
    calls = FRAME_KEYS // large_blocks.MOST_WRITES + 1
    made = MachineBlock([large_blocks.EACH], [each(256 * number, 256, 8, StorageCall.WRITE) for number in range(calls)])
    return [asked(entries), asked(made), [framed(MachineBlock([COUNT], [count(1)]))]]


def of_long_entries() -> Parts:
    block = MachineBlock([COUNT], [count(1)], keys_of(FRAME_KEYS * 5 // 4, 256), 2)
    return [asked(block)]


def of_many_programs() -> Parts:
    made = programs_of(SESSION_PROGRAMS)
    calls = [CallLine(number, MOST_GAS, count(number % 5).data) for number in range(MOST_PROGRAMS)]
    asks = [framed(MachineBlock(made[first : first + MOST_PROGRAMS], calls)) for first in (0, SESSION_PROGRAMS - MOST_PROGRAMS)]
    forget = Request(Word.FORGET, (frames.name_of(made[7].file).encode(),))
    return [[program(one) for one in made] + asks, [asks[0], forget, *asks, Request(Word.PROGRAMS)]]


def of_many_requests() -> Parts:
    asks = [program(COUNT)]
    for number in range(REQUESTS // 5):
        block = MachineBlock([COUNT], [count(number % 100), count(1)])
        get = Request(Word.GET, (key_field(numbered_key(number % 100)),))
        asks += [framed(block), get, framed(block, Word.TRY), Request(Word.LAST), Request(Word.STATE)]
    return [asks]


def of_many_keys() -> Parts:
    listed = [Request(Word.LIST, (key_field(numbered_key(number)), b"1024")) for number in (0, large_blocks.MANY_KEYS - 1000)]
    return [[begun(keys_of(large_blocks.MANY_KEYS, 8), 1), *listed, *asked(MachineBlock([COUNT], [count(1), count(large_blocks.MANY_KEYS)]))]]


def of_long_program() -> Parts:
    longest = long_program(LONGEST_PROGRAM)
    block = MachineBlock([longest], [count(1), count(2)])
    return [[*asked(block), Request(Word.PROGRAM, (), longest.file + b"\0"), Request(Word.PROGRAM, (), bytes(10 * LONGEST_PROGRAM))], [framed(block)]]


def long_program(length: int) -> MachineProgram:
    """COUNT with so much data that its file has this length."""
    return MachineProgram(COUNT.source, large_blocks.filled(length - len(COUNT.file) - 32, 1))


def of_uneven_frames() -> Parts:
    """Frames of many long calls and of few, so that many threads and few take turns. The parts are given to other numbers of workers if a file keeps them."""
    few = [MachineBlock([COUNT], [count(number % 3, rounds) for number in range(calls)]) for calls, rounds in ((1, 1), (3, 9), (64, 3000))]
    many = large_blocks.of_few_keys(256, 2000)
    return [asked(many, *few), asked(*few, many), asked(few[2], few[0], many)]


MAKERS = {
    "frames of 1 MB, and of 1,024 calls with inputs of 4,096 bytes": SessionMaker(2, lambda: [asked(large_blocks.of_inputs(122)), asked(large_blocks.of_inputs())]),
    "100,000 entries in a frame, and 100,000 keys made by calls": SessionMaker(3, of_many_entries),
    "a frame above the default limit": SessionMaker(1, of_long_entries),
    "64 programs in a frame, 1,000 in a session": SessionMaker(2, of_many_programs),
    "10,000 requests": SessionMaker(1, of_many_requests),
    "begin with 262,144 keys": SessionMaker(1, of_many_keys),
    "begin and dump of 100,000 keys of 256 bytes": SessionMaker(
        1, lambda: [[begun(keys_of(DUMP_KEYS, 256), 3), Request(Word.GET, (key_field(numbered_key(DUMP_KEYS - 1)),)), Request(Word.DUMP)]]
    ),
    "a program of 131,072 bytes": SessionMaker(2, of_long_program),
    "1,024 calls on one key": SessionMaker(1, lambda: [asked(large_blocks.of_one_key())]),
    "frames of many calls and of few": SessionMaker(3, of_uneven_frames),
}
LIMITS = {"a frame above the default limit": sessions.HIGHEST}


def settings_of(name: str) -> Settings:
    return Settings(digest=True, frame_limit=LIMITS.get(name, LONGEST_FRAME))


def made_in(asks: Iterable[Request]) -> list[MachineProgram]:
    """The programs of Python whose files requests hand in."""
    programs = [COUNT, LAST, large_blocks.EACH, long_program(LONGEST_PROGRAM), *programs_of(SESSION_PROGRAMS)]
    files = {request.body for request in asks if request.word == Word.PROGRAM}
    return [one for one in programs if one.file in files]


@functools.lru_cache(maxsize=1)
def made(name: str) -> list[Exchange]:
    """The parts of a session, each as its input and what it has to be answered; the questions are the last part."""
    maker = MAKERS[name]
    parts = [*maker.make(), QUESTIONS]
    assert len(parts) == maker.parts + 1
    model = LargeSessionModel(settings_of(name), made_in(request for part in parts for request in part))

    return [Exchange(requests.text_of(part), b"".join(model.answer(request).text() for request in part)) for part in parts]
