"""Programs of `slowest` that never end: a loop through operations and jumps, over one page of code or many.

The code is cut into runs of equal length. Each run ends with a jump to the next one, in an order that is drawn; the last one leads to
the word behind the code. The file's code is mapped to several places, one behind the other, and behind the last the program begins again.
"""

import random
from collections.abc import Sequence
from dataclasses import dataclass

from rvstm_developers import machine_code as code
from rvstm_developers.machine_code import PAGE, WORD, FileSegment

WORDS_A_PAGE = PAGE // WORD
MOST_PAGES, MOST_COPIES = 31, 7  # of code in a file, and places to which it is mapped
PLAIN = (*code.IMMEDIATES, *code.SHIFTS, *code.COMPUTATIONS, "lui", "auipc")
FREE = (1, 2, 3, 4, 9, 13)
POINTERS = (5, 6, 7, 8, 14, 15, 16, 26)  # registers that have the address of a word in one of the copies, for `swap`


@dataclass(frozen=True)
class Slow:
    """What a program is like: its pages and copies, the words of a run, and the pages to draw the next run from."""

    pages: int
    copies: int
    run: int
    reach: int
    zero: float = 0.0
    """How many of the results go to x0, which no predictor can learn."""
    operations: Sequence[str] = PLAIN
    swaps: bool = False
    """Whether half of the jumps continue at a place in a register, and keep their own: all copies run at once."""


SLOW = {
    "fence": Slow(1, 1, WORDS_A_PAGE, 0, operations=("fence",)),
    "straight": Slow(29, MOST_COPIES, WORDS_A_PAGE, 0, 0.05),
    "two": Slow(2, 1, 1, 2),
    "jumps": Slow(MOST_PAGES, MOST_COPIES, 1, MOST_PAGES, 0.5),
    "swaps": Slow(MOST_PAGES, MOST_COPIES, 1, MOST_PAGES, 0.5, swaps=True),
    "random": Slow(MOST_PAGES, MOST_COPIES, 16, MOST_PAGES, 0.5),
}


class Maker:
    def __init__(self, slow: Slow, name: str) -> None:
        self.slow, self.choice = slow, random.Random(f"code of {name}")

    def result(self) -> int:
        return 0 if self.choice.random() < self.slow.zero else self.choice.choice(FREE)

    def operation(self) -> int:
        name, bits = self.choice.choice(self.slow.operations), self.choice.getrandbits
        source, other = self.choice.choices((0, *FREE), k=2)
        if name in code.IMMEDIATES:
            return code.immediate(name, self.result(), source, bits(12))
        if name in code.SHIFTS:
            return code.shifted(name, self.result(), source, bits(5))
        if name in code.COMPUTATIONS:
            return code.computed(name, self.result(), source, other)
        return {"lui": code.lui, "auipc": code.auipc}[name](self.result(), bits(20)) if name != "fence" else code.FENCE

    def jump(self, offset: int) -> int:
        if self.slow.swaps and self.choice.random() < 0.5:
            register = self.choice.choice(POINTERS)
            return code.jalr(register, register, 0)
        return code.jal(self.result(), offset)

    def order(self) -> list[int]:
        """The runs in the order in which jumps lead through them, the one at which a copy is entered first."""
        runs = list(range(self.slow.pages * WORDS_A_PAGE // self.slow.run))
        if self.slow.reach == 2:
            half = len(runs) // 2
            return [run for pair in zip(runs[:half], self.choice.sample(runs[half:], half)) for run in pair]
        return [0, *self.choice.sample(runs[1:], len(runs) - 1)] if self.slow.reach else runs

    def words(self) -> list[int]:
        words, length, order = [0] * (self.slow.pages * WORDS_A_PAGE), self.slow.run, self.order()
        for run, following in zip(order, [*order[1:], len(order)]):
            offset = (following - run) * length * WORD
            made = [self.operation() for _ in range(length - 1)]
            made.append(self.operation() if following == run + 1 and length > 1 else self.jump(offset - (length - 1) * WORD))
            words[run * length : (run + 1) * length] = made
        return words

    def start(self, start: int) -> list[int]:
        """The word behind the code, which begins again, and the instructions with which a call begins."""
        words, count = [code.jal(0, code.FIRST_ADDRESS - start)], (start - code.FIRST_ADDRESS) // WORD
        for register in FREE:
            words += code.constant(register, self.choice.getrandbits(32))
        for number, register in enumerate(POINTERS):
            place = (number * count + self.choice.randrange(count)) // len(POINTERS)
            words += code.constant(register, code.FIRST_ADDRESS + place * WORD)
        return [*words, code.jal(0, code.FIRST_ADDRESS - start - WORD * len(words))]


def program_of(name: str) -> bytes:
    """The program file of a name of `SLOW`."""
    slow, rights = SLOW[name], code.READ | code.EXECUTE
    maker = Maker(slow, name)
    text = code.text_of(maker.words())
    start = code.FIRST_ADDRESS + slow.copies * len(text)
    begin = code.text_of(maker.start(start))
    segments = [FileSegment(code.FIRST_ADDRESS + n * len(text), 0, len(text), rights) for n in range(slow.copies)]
    return code.program_file(start + WORD, text + begin, [*segments, FileSegment(start, len(text), len(begin), rights)])
