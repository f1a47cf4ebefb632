"""The blocks of rvstm-developers slowest: each is made to take much time or memory in one way. All are legal."""

import random
from collections.abc import Callable, Sequence
from dataclasses import dataclass, field
from enum import Enum
from pathlib import Path

from rvstm_developers import texts
from rvstm_developers import machine_code as code
from rvstm_developers.bench import slow_programs
from rvstm_developers.machine_code import PAGE, WORD, FileSegment
from rvstm_developers.texts import word
from rvstm_tools.sessions import frames, requests
from rvstm_tools.texts.blocks import CallLine
from rvstm_tools.texts.keys import KEY_LENGTH, Storage
from rvstm_tools.texts.keys import numbered_key as key

GAS = 10_000_000  # the most that a call may have
MOST_CALLS, MOST_PROGRAMS, MOST_INPUT, MOST_KEYS, LONGEST_VALUE = 1_024, 64, 4_096, 256, 256
RULES = 3
DATA = code.FIRST_ADDRESS + PAGE
NO_END = word(2**32 - 1)  # rounds that are not reached

SEQ, RUN_1, RUN, CHAIN, CHAIN_4 = "seq", "run --workers 1", "run --workers 4", "chain", "chain --workers 4"
ALL_WAYS = (SEQ, RUN, CHAIN, CHAIN_4)


class Share(Enum):
    GAS = "ns a unit"
    CALL = "µs a call"


@dataclass(frozen=True)
class Content:
    """A block: its programs, each a name in bench/programs or a file's bytes, its calls and its storage."""

    programs: Sequence[str | bytes]
    calls: Sequence[CallLine]
    store: Storage = field(default_factory=dict)
    gas: int | None = None  # what its calls use, if that is known before they run


def used_up(programs: Sequence[str | bytes], calls: Sequence[CallLine], store: Storage | None = None) -> Content:
    return Content(programs, calls, store or {}, sum(gas for _, gas, _ in calls))


def write_block(place: Path, name: str, content: Content) -> None:
    """Writes a block file NAME.block, and the requests of a session that hand in its programs and the block."""
    paths = []
    for number, program in enumerate(content.programs):
        paths.append(f"{program}.elf" if isinstance(program, str) else f"{name}-{number}.elf")
        if isinstance(program, bytes):
            (place / paths[-1]).write_bytes(program)
    text = texts.block_text(paths, content.store, content.calls, texts.head_of(RULES))
    (place / f"{name}.block").write_text(text, encoding="utf-8")
    named = frames.named(text.encode(), place)
    (place / f"{name}.requests").write_bytes(requests.text_of((*named.programs(), named.frame())))


@dataclass(frozen=True)
class SlowBlock:
    """A row, or as many as there are ways to run it."""

    name: str
    what: str  # what its calls do
    share: Share
    ways: Sequence[str]
    make: Callable[[int], Content]  # by the number of calls with the most gas


def endless(count: int, program: int = 0) -> list[CallLine]:
    """Calls that use up the most gas, each with a key of its own."""
    return [CallLine(program, GAS, key(number) + NO_END) for number in range(count)]


# ---- time for a unit of gas


def halves(count: int) -> Content:
    calls = endless(count)
    return used_up(["work", "reads"], calls[: count // 2] + [CallLine(1, gas, data) for _, gas, data in calls[count // 2 :]])


def drawn(name: str) -> Callable[[int], Content]:
    return lambda count: used_up([slow_programs.program_of(name)], endless(count))


# ---- time for a call


def short(program: str | bytes, gas: int, data: bytes = b"") -> Callable[[int], Content]:
    return lambda _: Content([program], [CallLine(0, gas, data)] * MOST_CALLS)


TRAP = (0,)  # an illegal word


def touching() -> list[int]:
    """The words that store to each page that a call may store to, and trap."""
    words = [*code.constant(5, DATA), *code.constant(6, code.END_ADDRESS), *code.constant(7, PAGE)]
    words += [code.stored("sw", 6, 5, 0), code.computed("add", 5, 5, 7), code.branch("bne", 5, 6, -2 * WORD)]
    return [*words, *TRAP]


def paged(words: Sequence[int], filled: int = 0, seed: int = 0) -> bytes:
    """A program of these words, with all pages of data that it may have. So many of them are filled from the file, and are mapped to
    six places."""
    text, content = code.text_of(words), random.Random(seed).randbytes(filled * PAGE)
    rights = code.READ | code.WRITE
    segments = [FileSegment(code.FIRST_ADDRESS, 0, len(text), code.READ | code.EXECUTE)]
    for place in range(6 if filled else 0):
        segments.append(FileSegment(DATA + place * len(content), len(text), len(content), rights))
    rest = DATA + (len(segments) - 1) * len(content)
    segments.append(FileSegment(rest, 0, 0, rights, code.INPUT_ADDRESS - rest))
    return code.program_file(code.FIRST_ADDRESS, text + content, segments)


def many(words: Sequence[int], count: int, data: bytes = b"") -> Callable[[int], Content]:
    """So many calls of as many programs as there may be, each with its own pages, in turn."""

    def make(_: int) -> Content:
        programs = [paged(words, slow_programs.MOST_PAGES, number) for number in range(MOST_PROGRAMS)]
        return Content(programs, [CallLine(number % MOST_PROGRAMS, 10_000, data) for number in range(count)])

    return make


def writer(length: int) -> bytes:
    """A program that writes a value of this length to each of the most keys, and returns the longest output. The first word of its
    input is a part of the keys."""
    words = [code.loaded("lw", 9, 10, 0), *code.constant(8, 0x10_F000), *code.constant(18, MOST_KEYS), code.stored("sw", 9, 8, 4)]
    words += [code.immediate("addi", 11, 8, 64), code.immediate("addi", 12, 0, length)]
    loop = len(words)
    words += [code.stored("sw", 18, 8, 0), *code.storage_call(1, 8), code.immediate("addi", 18, 18, -1)]
    words += [code.branch("bne", 18, 0, (loop - len(words)) * WORD), code.immediate("addi", 11, 0, 256), *code.storage_call(3, 8)]
    text = code.text_of(words)
    return code.program_file(code.FIRST_ADDRESS, text, [FileSegment(code.FIRST_ADDRESS, 0, len(text), code.READ | code.EXECUTE)])


def writes(_: int) -> Content:
    """The most calls, each of which writes the longest values to as many keys of its own as it may."""
    return Content([writer(LONGEST_VALUE)], [CallLine(0, 1_000_000, word(number)) for number in range(MOST_CALLS)])


# ---- sums


def two_sums(_: int) -> Content:
    """1,008 calls that add to two keys, and two that read both in turn again and again."""
    both = b"".join(word(number).ljust(KEY_LENGTH, b"\0") for number in (0, 1))
    return Content(["sweep", "turns"], [CallLine(0, 10_000, word(2) + word(0))] * 1_008 + [CallLine(1, GAS, both)] * 2)


def table_of_sums(_: int) -> Content:
    """500 calls that add to the same 256 keys, and 500 that read each of them once."""
    data = word(MOST_KEYS) + word(0)
    return Content(["sweep", "gather"], [CallLine(0, 1_000_000, data)] * 500 + [CallLine(1, 1_000_000, data)] * 500)


def many_sums(_: int) -> Content:
    """50,000 keys, to each of which five calls add, and then four calls of which each reads half of them."""
    keys, layers = 50_000, 5
    starts = range(0, keys, MOST_KEYS)
    adds = [CallLine(0, 1_000_000, word(min(MOST_KEYS, keys - start)) + word(start)) for _ in range(layers) for start in starts]
    reads = [CallLine(1, GAS, word(keys // 2) + word(half * keys // 2)) for half in (0, 1, 0, 1)]
    return Content(["sweep", "gather"], adds + reads)


def sums_of_a_frame(_: int) -> Content:
    """22 calls that compute, 900 that add to a key at once, and 100 that read it forty times."""
    calls = [CallLine(0, GAS, key(1_000 + number) + word(250_000)) for number in range(22)]
    calls += [CallLine(0, GAS, key(1) + word(1_000))] * 900 + [CallLine(1, GAS, key(1) + word(1_000) + word(40))] * 100
    return Content(["add-later", "read-later"], calls)


RUNS = (SEQ, RUN_1, RUN)
BLOCKS = (
    SlowBlock("work", "mix a word in a loop", Share.GAS, ALL_WAYS, lambda count: used_up(["work"], endless(count))),
    SlowBlock("reads", "read one key of their own again and again", Share.GAS, ALL_WAYS, lambda count: used_up(["reads"], endless(count))),
    SlowBlock("long-reads", "the same, of a value that is longer than the buffer", Share.GAS, ALL_WAYS,
          lambda count: used_up(["reads"], endless(count), {key(number): bytes(LONGEST_VALUE) for number in range(count)})),
    SlowBlock("both", "the first half `work`, the second `reads`", Share.GAS, ALL_WAYS, halves),
    SlowBlock("fence", "FENCE alone", Share.GAS, (SEQ,), drawn("fence")),
    SlowBlock("two", "jump from each of two pages to the other", Share.GAS, (SEQ,), drawn("two")),
    SlowBlock("jumps", "jump to another of 217 pages each time", Share.GAS, (SEQ,), drawn("jumps")),
    SlowBlock("swaps", "the same in seven copies of the code at the same time", Share.GAS, (SEQ,), drawn("swaps")),
    SlowBlock("straight", "random operations over 203 pages, in their order", Share.GAS, (SEQ,), drawn("straight")),
    SlowBlock("random", "random operations over 217 pages, of which each sixteenth is a jump", Share.GAS, (SEQ,), drawn("random")),
    SlowBlock("writes", "write 256 bytes to each of 256 keys of their own", Share.GAS, (SEQ, RUN), writes),
    SlowBlock("traps", "trap at once", Share.CALL, (SEQ, RUN), short(paged(TRAP), 1)),
    SlowBlock("inputs", "the same with inputs of 4,096 bytes", Share.CALL, (SEQ, RUN), short(paged(TRAP), 1, bytes(MOST_INPUT))),
    SlowBlock("loads", "64 calls that trap at once, each of a program of its own", Share.CALL, (SEQ, RUN), many(TRAP, MOST_PROGRAMS)),
    SlowBlock("pages", "store to 255 pages, and trap", Share.CALL, (SEQ, RUN), short(paged(touching()), 10_000)),
    SlowBlock("programs", "the same of 64 programs, with 186 pages from the file each", Share.CALL, (SEQ, RUN), many(touching(), MOST_CALLS)),
    SlowBlock("short", "the same with inputs of 4,096 bytes", Share.CALL, (SEQ, RUN), many(touching(), MOST_CALLS, bytes(MOST_INPUT))),
    SlowBlock("one-sum", "1,008 add to a key, 2 read it again and again", Share.GAS, RUNS,
          lambda _: Content(["bump", "reads"], [CallLine(0, 1_000, key(1))] * 1_008 + [CallLine(1, GAS, key(1))] * 2)),
    SlowBlock("two-sums", "1,008 add to two keys, 2 read both in turn", Share.GAS, RUNS, two_sums),
    SlowBlock("sums", "500 add to the same 256 keys, 500 read each once", Share.GAS, RUNS, table_of_sums),
    SlowBlock("many-sums", "50,000 keys: 5 add to each, 2 read it", Share.GAS, RUNS, many_sums),
    SlowBlock("frame-sums", "22 compute, 900 add to a key, 100 read it 40 times", Share.GAS, (CHAIN, CHAIN_4), sums_of_a_frame),
)
