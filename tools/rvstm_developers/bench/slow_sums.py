"""The frames of rvstm-developers sums: reads pass many sums of earlier calls. All are legal."""

from collections.abc import Sequence
from dataclasses import dataclass

from rvstm_developers.bench.slow_blocks import GAS, Content
from rvstm_developers.texts import word
from rvstm_tools.debugging.charges import StorageCall
from rvstm_tools.texts.blocks import CallLine
from rvstm_tools.texts.keys import numbered_key as key

PROGRAMS = ("add-later", "read-later", "list-later")
HOT, OTHER, OWN = 1, 2, 1_000  # numbers of keys; those of calls that compute begin at OWN
ROUNDS, MORE_ROUNDS = 1_000, 2_500  # of two units of gas each
ADD, READ = StorageCall.ADD, StorageCall.READ


@dataclass(frozen=True)
class SumsFrame:
    name: str
    what: str  # what its calls do
    calls: Sequence[CallLine]

    def content(self) -> Content:
        return Content(PROGRAMS, self.calls)


def add(count: int, number: int = HOT, rounds: int = ROUNDS) -> list[CallLine]:
    return [CallLine(0, GAS, key(number) + word(rounds))] * count


def read(count: int, times: int, number: int = HOT, rounds: int = ROUNDS) -> list[CallLine]:
    return [CallLine(1, GAS, key(number) + word(rounds) + word(times))] * count


def compute(count: int, rounds: int = ROUNDS, first: int = OWN) -> list[CallLine]:
    """Calls that add to keys of their own, which nobody reads."""
    return [call for number in range(count) for call in add(1, first + number, rounds)]


def listed(count: int, asked: Sequence[tuple[StorageCall, int]], times: int = 1) -> list[CallLine]:
    """Calls that make these storage calls in turn so often, each at the key of a number."""
    data = b"".join(word(call) + key(number) for call, number in asked)
    return [CallLine(2, GAS, word(MORE_ROUNDS) + word(times) + data)] * count


def at_keys(call: StorageCall, count: int) -> list[tuple[StorageCall, int]]:
    return [(call, HOT + number) for number in range(count)]


FRAMES = (
    SumsFrame("small", "8 compute, 250 add to a key, 100 read it 60 times", compute(8) + add(250) + read(100, 60)),
    SumsFrame("many", "22 compute, 900 add to a key, 100 read it 40 times",
          compute(6, 250_000) + compute(16, first=2 * OWN) + add(900) + read(100, 40)),
    SumsFrame("adders", "4 compute, 1,000 add, 20 read 60 times", compute(4, 250_000) + add(1_000) + read(20, 60)),
    SumsFrame("readers", "22 compute, 400 add, 600 read 10 times", compute(22, 50_000) + add(400) + read(600, 10)),
    SumsFrame("two-keys", "8 compute, 300 add to two keys, 100 read both in turn 30 times",
          compute(8) + listed(300, at_keys(ADD, 2)) + listed(100, at_keys(READ, 2), 30)),
    SumsFrame("first-batch", "60 add, 300 read 60 times, and none computes alone before them",
          add(60, rounds=5_000) + read(300, 60, rounds=5_000)),
    SumsFrame("in-turn", "8 compute, 20 add, then 400 that add and 400 that read 20 times, in turn",
          compute(8) + add(20) + (add(1, rounds=MORE_ROUNDS) + read(1, 20, rounds=MORE_ROUNDS)) * 400),
    SumsFrame("at-end", "400 add, 300 compute, and at the end 200 read 30 times",
          add(400, rounds=MORE_ROUNDS) + compute(300, MORE_ROUNDS) + read(200, 30)),
    SumsFrame("much-gas", "8 compute, 300 add, 200 read 30 times and use 40,000 gas besides",
          compute(8) + add(300) + read(200, 30, rounds=20_000)),
    SumsFrame("also-read", "8 compute, 40 add to another key, 500 read that and add, 100 read 40 times",
          compute(8) + add(40, OTHER) + listed(500, [(READ, OTHER), (ADD, HOT)]) + read(100, 40)),
    SumsFrame("eight-keys", "8 compute, 300 add to eight keys, 100 read all in turn 5 times",
          compute(8) + listed(300, at_keys(ADD, 8)) + listed(100, at_keys(READ, 8), 5)),
    SumsFrame("few-adders", "22 compute, 40 add, 900 read 10 times", compute(22, 50_000) + add(40) + read(900, 10)),
    SumsFrame("own-sums", "8 compute, 20 add, 600 add and then read the same key 10 times",
          compute(8) + add(20) + listed(600, [(ADD, HOT), *[(READ, HOT)] * 10])),
    SumsFrame("harmless", "64 compute for long, 500 add, 300 read 50 times", compute(64, 20_000) + add(500) + read(300, 50)),
)
