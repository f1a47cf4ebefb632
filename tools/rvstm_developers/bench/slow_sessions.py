"""Sessions over a million keys: reads of keys that have one hash, keys that come and go, and pages of `list`."""

import random
import statistics
from collections.abc import Callable, Sequence
from dataclasses import dataclass
from pathlib import Path

from rvstm_developers import texts
from rvstm_developers.bench import processes
from rvstm_developers.texts import word
from rvstm_tools.errors import UserError
from rvstm_tools.sessions import frames, requests
from rvstm_tools.sessions.processes import Session, Settings
from rvstm_tools.sessions.requests import Request, Word
from rvstm_tools.texts.blocks import CallLine
from rvstm_tools.texts.keys import KEY_LENGTH, Key

KEYS = 1 << 20
GAS, CALLS = 10_000_000, 2
MOST_CALLS, MOST_KEYS, FEW_FRAMES = 1_024, 256, 20
ADD, REMOVE = 5, 2
MULTIPLIER, ADDEND = 1_664_525, 1_013_904_223  # of bench/programs/scatter.s
PAGE, PAGES = 1_024, 20  # keys of a page of `list`, and how many pages of a place are asked for
ONES = 2**32 - 1
FRAME_LIMIT = 1 << 27


@dataclass(frozen=True)
class SessionRow:
    what: str
    seconds: float
    unit: str  # for what it takes that
    ratio: float  # beside that of the first row, in the same round


def pair_key(number: int, mask: int) -> Key:
    """A number of 64 bits, and its opposite as far as a mask says."""
    opposite = -number % 2**64 if mask else 0
    return Key(word(number, 8) + word(opposite, 8) + bytes(KEY_LENGTH - 16))


def random_keys() -> list[Key]:
    choice = random.Random(2)
    return sorted(Key(choice.randbytes(KEY_LENGTH)) for _ in range(KEYS))


def begun(rvstm: Path, keys: list[Key], store: str | None = None) -> Session:
    session = Session(rvstm, Settings(frame_limit=FRAME_LIMIT, store=store))
    dump = frames.dump_of(3, dict.fromkeys(keys, word(1, 8)))
    processes.answered(session, requests.begin(0, bytes(32) if store else None, dump))
    return session


def compared(names: Sequence[str], unit: str, rounds: int, act: Callable[[int], float]) -> list[SessionRow]:
    """Rows of acts that are made in turn: the median of what each took, and of its ratio to the first one."""
    made = [[act(one) for one in range(len(names))] for _ in range(rounds)]
    ratios = [statistics.median(times[one] / times[0] for times in made) for one in range(len(names))]
    middle = [statistics.median(times[one] for times in made) for one in range(len(names))]
    return [SessionRow(*row) for row in zip(names, middle, [unit] * len(names), ratios)]


def reads_of_one_hash(rvstm: Path, place: Path, rounds: int) -> list[SessionRow]:
    """Reads of keys drawn at random among a million, of other hashes and of one."""
    masks, program = (0, ONES), (place / "draw.elf").read_bytes()
    open_sessions = [begun(rvstm, [pair_key(number, mask) for number in range(KEYS)]) for mask in masks]
    for session in open_sessions:
        processes.answered(session, Request(Word.PROGRAM, (), program))
    choice = random.Random(1)

    def act(one: int) -> float:
        calls = [CallLine(0, GAS, word(masks[one]) + word(choice.getrandbits(32))) for _ in range(CALLS)]
        return processes.answered(open_sessions[one], frame_of(program, calls)).processor / 1000 / (CALLS * reads_of_a_call())

    try:
        return compared(("a read of a random key, all of other hashes", "the same, all of one hash"), "a read", rounds, act)
    finally:
        for session in open_sessions:
            session.kill()


def reads_of_a_call() -> int:
    """How many reads bench/programs/draw.s makes until its gas is used up: each is of a value of eight bytes."""
    before, a_read = 10, 4 + 5 + 3 * 2 + 1 + 200 + 8 + 1
    return (GAS - before) // a_read


def frame_of(program: bytes, calls: Sequence[CallLine]) -> Request:
    return Request(Word.FRAME, (), texts.block_text([frames.name_of(program)], {}, calls, texts.head_of(3)).encode())


def scattered(program: bytes, number: int, call: int, calls: int, keys: int) -> Request:
    """A frame of calls of which each makes a storage call at so many keys, which are drawn from a number on."""
    made = []
    for _ in range(calls):
        made.append(CallLine(0, GAS, word(keys) + word(number) + word(call)))
        for _ in range(keys):
            number = (number * MULTIPLIER + ADDEND) % 2**32
    return frame_of(program, made)


def gas_in(body: bytes) -> int:
    return sum(int(line.split(b" ", 5)[4]) for line in body.splitlines() if line.startswith(b"call "))


def keys_that_come(rvstm: Path, place: Path, rounds: int, store: str | None = None) -> list[SessionRow]:
    """Frames that add keys to a million, and remove them again: 262,144 in one, and 400 in each of twenty."""
    scatter, work = ((place / f"{name}.elf").read_bytes() for name in ("scatter", "work"))
    asked = [[frame_of(work, [CallLine(0, GAS, bytes(KEY_LENGTH) + word(ONES))] * CALLS)]]
    asked += [[scattered(scatter, 1, call, MOST_CALLS, MOST_KEYS)] for call in (ADD, REMOVE)]
    asked += [[scattered(scatter, 7 * number, call, 2, 200) for number in range(FEW_FRAMES)] for call in (ADD, REMOVE)]
    names = ("`work`", "1,024 calls that each add 256 new keys", "the same that remove them", "2 calls that each add 200 new keys",
             "the same that remove them")
    with begun(rvstm, random_keys(), store) as session:
        for program in (scatter, work):
            processes.answered(session, Request(Word.PROGRAM, (), program))

        def act(one: int) -> float:
            found = [processes.answered(session, frame) for frame in asked[one]]
            return sum(each.processor for each in found) / 1000 / sum(gas_in(each.body) for each in found)

        where = ", in a file" if store else ""
        return compared([f"{name}{where}" for name in names], "a unit of gas", rounds, act)


def pages_of_a_list(rvstm: Path, rounds: int) -> list[SessionRow]:
    keys = random_keys()
    places = (0, KEYS - PAGE - PAGES)
    with begun(rvstm, keys) as session:

        def act(one: int) -> float:
            spent = 0.0
            for number in range(PAGES):
                first = requests.key_field(keys[places[one] + number])
                found = processes.answered(session, Request(Word.LIST, (first, b"%d" % PAGE)))
                if found.body.count(b"\n") != PAGE or first not in found.body:
                    raise UserError("a page of `list` has other keys")
                spent += found.processor
            return spent / 1000 / PAGES

        return compared(("`list` of 1,024 keys, from the first one on", "the same at the last keys"), "a page", rounds, act)
