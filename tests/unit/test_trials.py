"""Parts of the long tests: the bound of steps, the model of a machine, and what a cut leaves of a file."""

import unittest
from unittest import mock

from rvstm_developers.models import machine
from rvstm_developers.models.machine import MachineBlock, MachineProgram
from rvstm_developers.stores import disks
from rvstm_developers.stores.disks import FILE, SYNCED, Disk, Step
from rvstm_developers.stores.files import Both
from rvstm_developers.trials import stress
from rvstm_tools.texts.blocks import CallLine
from rvstm_tools.texts.keys import numbered_key
from rvstm_tools.texts.results import End


class LongTest(unittest.TestCase):
    def test_the_bound_of_steps(self) -> None:
        """One call of gas 200, so two reads, by one worker, executed once: by hand after the clause `bounded`."""
        self.assertEqual(stress.most_steps(1, 200, 1, 1), (2 * (2 + 512 + 2) + 2 * (2 + 3) + 257) + 2)

    def test_words_of_the_machine(self) -> None:
        """The words are those of examples in the manual's tables, as GNU as makes them."""
        for line, word in {
            "addi a0,a0,1": 0x00150513, "lw t0,4(a0)": 0x00452283, "sw t0,8(sp)": 0x00512423, "ecall": 0x00000073,
            "add a0,a1,a2": 0x00C58533, "lui t0,0": 0x000002B7,
        }.items():
            with self.subTest(line):
                self.assertEqual([machine.encoded(row) for row in machine.instructions_of([line])], [word])

    def test_a_block_of_the_model(self) -> None:
        """It returns no bytes: three instructions of 1 gas, and a RETURN of 10."""
        program = MachineProgram(["addi a7,zero,3", "addi a1,zero,0", "addi a0,a0,0", "ecall"])
        (receipt,) = MachineBlock([program], [CallLine(0, 100, b"")], {numbered_key(1): b"x"}).ran()
        self.assertEqual((receipt.end, receipt.gas, receipt.pc, receipt.output), (End.RETURNED, 13, 0x1000C, b""))

    def test_what_a_cut_leaves(self) -> None:
        disk = Disk(Both(b"old", None))
        disk.take(Step(b"w", FILE, 3, b"new"))
        self.assertEqual(disk.both(), Both(b"oldnew", b""))
        self.assertEqual(disks.left(mock.Mock(), disk.synced[FILE], disk.changes[FILE], disks.none_of), b"old")
        disk.take(Step(SYNCED, FILE, 0, b""))
        self.assertEqual(disk.synced[FILE], b"oldnew")
