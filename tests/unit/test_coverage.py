"""Coverage: lines and branches by the steps of calls, and the format of lcov as geninfo(1) describes it."""

import unittest
from collections import Counter

from rvstm_tools.commands.coverage import counts_of_inputs
from rvstm_tools.debugging import coverage
from rvstm_tools.debugging.coverage import AtBranch, BranchOfSource, SourceFile, Steps, Ways
from rvstm_tools.texts import lists
from unit.helpers import InFolder


def source() -> SourceFile:
    """Lines 3 to 5 and 9; line 3 has a branch that went both ways, line 5 one that went one way, line 9 did not run."""
    made = SourceFile(Counter({3: 4, 4: 2, 5: 2, 9: 0}))
    made.add_branch(BranchOfSource(3, "f", 0), Ways(1, 2))
    made.add_branch(BranchOfSource(3, "f", 0), Ways(0, 1))
    made.add_branch(BranchOfSource(5, "f", 0), Ways(2, 0))
    made.add_branch(BranchOfSource(5, "f", 1), Ways(0, 0))
    made.add_branch(BranchOfSource(9, "f", 0), Ways(0, 0))
    return made


class Branches(unittest.TestCase):
    def test_words(self) -> None:
        """The opcodes of the ISA manual's table of instructions."""
        for word, name in {
            0x00000463: "beq", 0x00001463: "bne", 0x00004463: "blt", 0x00005463: "bge", 0x00006463: "bltu", 0x00007463: "bgeu",
            0x00002463: None, 0x00000013: None, 0x0000006F: None, 0x00000073: None,
        }.items():
            self.assertEqual(coverage.mnemonic_of(word), name)

    def test_ways(self) -> None:
        steps = Steps()
        for mnemonic in ("beq", "bne"):
            steps.taken[AtBranch(8, mnemonic)], steps.passed[AtBranch(8, mnemonic)] = 5, 7
        self.assertEqual(steps.ways(AtBranch(8, "beq")), Ways(true=5, false=7))
        self.assertEqual(steps.ways(AtBranch(8, "bne")), Ways(true=7, false=5))  # a `bne` is taken if both are not equal
        self.assertEqual(steps.ways(AtBranch(12, "beq")), Ways(0, 0))


class Printed(unittest.TestCase):
    def test_lines(self) -> None:
        wanted = ["a.c: lines 3 of 4, 75.0 %; branches 3 of 8, 37.5 %", "    not run: 9", "    not both ways: 5"]
        self.assertEqual(list(coverage.source_lines("a.c", source())), wanted)
        self.assertEqual(list(coverage.source_lines("b.c", SourceFile())), ["b.c: lines 0 of 0; branches 0 of 0"])

    def test_lcov(self) -> None:
        wanted = """\
TN:
SF:/src/a.c
BRDA:3,0,0,1
BRDA:3,0,1,3
BRDA:5,0,0,2
BRDA:5,0,1,0
BRDA:5,1,0,-
BRDA:5,1,1,-
BRDA:9,0,0,-
BRDA:9,0,1,-
BRF:8
BRH:3
DA:3,4
DA:4,2
DA:5,2
DA:9,0
LF:4
LH:3
end_of_record"""
        self.assertEqual(list(coverage.lcov_lines("/src/a.c", source())), wanted.splitlines())

    def test_rows_of_numbers(self) -> None:
        self.assertEqual(coverage.rows_of([]), [""])
        self.assertEqual(coverage.rows_of([7, 1, 2, 3, 9]), ["1-3, 7, 9"])
        rows = coverage.rows_of(range(0, 200, 2))
        self.assertEqual(", ".join(rows).replace(" ", "").split(","), [str(number) for number in range(0, 200, 2)])
        self.assertLessEqual(max(map(len, rows)), 110)


class Inputs(InFolder):
    def test_counts(self) -> None:
        """By the shapes of all lists; an input that no call has is 0, and one that fits no shape has no name."""
        calls = "".join(f"call a 5 {data}\n" for data in ("u8:0 u8:7", "u8:1", "u8:0", "", "u8:1"))
        paths = [
            self.write("one.list", f"program a a.elf\nshape input add u8:0 u8\nshape input done u8:2\n{calls}"),
            self.write("two.list", f"program a a.elf\nshape input take u8:1\n{calls}"),
        ]
        self.assertEqual(counts_of_inputs(list(map(lists.read_list, paths))), {"add": 2, "done": 0, "take": 4, "": 4})
