"""Replays and traces of a call, by a program that answers the lines of `debug` as docs/formats.md says."""

import sys
import unittest
from pathlib import Path

from rvstm_tools.debugging import charges, replays, traces
from rvstm_tools.debugging.replays import Frame, StorageReplay, StorageStep, Turn
from rvstm_tools.debugging.sessions import CallOf, Debugger, Place, place_of
from rvstm_tools.debugging.sources import Inlined
from rvstm_tools.errors import UserError
from rvstm_tools.texts import blockfiles
from rvstm_tools.texts.blockfiles import CallHead
from rvstm_tools.texts.keys import Key
from rvstm_tools.texts.results import End, Receipt
from rvstm_tools.texts.views import View
from unit.helpers import InFolder

# The call: start calls a function, which reads a key; start returns two bytes.
STEPS = """\
0 00010000 jal x1,16
1 00010010 ecall
2 00010014 mul x5,x6,x7
3 00010018 jalr x0,0(x1)
4 00010004 lw x5,0(x6)
5 00010008 ecall
6 00010008 ecall
"""
DEBUG = f"#!{sys.executable} -IS\n" """\
import sys
steps = STEPS
registers = {1: {10: 0x100000, 11: 0x100040, 12: 64, 17: 0}, 2: {10: 3}, 5: {10: 0x100020, 11: 2, 17: 3}}
memory = {"00100000 32": "61" + "00" * 31, "00100040 3": "0a0b0c", "00100020 2": "6869"}
at = 0
for line in sys.stdin:
    word, _, rest = line.strip().partition(" ")
    if word == "s":
        at = min(at + 1, len(steps) - 1)
    elif word == "g":
        at += 1
        while at < len(steps) - 1 and steps[at].split()[1] != rest:
            at += 1
        at = min(at, len(steps) - 1)
    if word == "r":
        row = registers.get(at, {})
        print("regs", *("%08x" % row.get(n, 0) for n in range(32)), flush=True)
    elif word == "m":
        print(memory.get(rest, "refused BadRange 4"), flush=True)
    else:
        print(steps[at], flush=True)
"""
# 1 jal, 200 READ under rules one, 4 mul, 1 jalr, 2 lw, 12 RETURN of two bytes
GAS = 1 + 200 + 4 + 1 + 2 + 12


class Replayed(InFolder):
    def call(self, steps: str = STEPS) -> CallOf:
        program = Path(self.write("rvstm", DEBUG.replace("STEPS", repr(steps.splitlines()), 1)))
        program.chmod(0o755)
        return CallOf(program, "a.block", 0)

    def receipt(self, gas: int, end: End = End.RETURNED) -> Receipt:
        return Receipt(0, end, gas, 0x10008, b"hi")

    def test_steps_and_gas(self) -> None:
        replay = StorageReplay(self.call(), 1)
        self.assertEqual((replay.total, replay.gas, replay.last.text), (6, GAS - 12, "ecall"))
        replay.end_by(self.receipt(GAS), 1000)
        self.assertEqual(replay.storage_calls[-1].cost, 12)
        self.assertEqual(dict(replay.entry.counts), {0x10000: 1, 0x10004: 1})
        self.assertEqual(dict(replay.entry.callees[0x10000].counts), {0x10014: 1, 0x10018: 1})

    def test_storage_calls(self) -> None:
        read, back = StorageReplay(self.call(), 1).storage_calls
        self.assertEqual(read.text(View()), 'READ "a" up to 64 bytes: 0a0b0c')
        self.assertEqual(read.text(View({Key(b"a".ljust(32, b"\0")): "table:t:a"})), "READ table:t:a up to 64 bytes: 0a0b0c")
        self.assertEqual((read.moment, read.pc, read.gas, read.cost, read.answer), (1, 0x10010, 1, 200, 3))
        self.assertEqual(back.text(View()), 'RETURN "hi"  6869  26984')
        self.assertEqual((back.moment, back.gas), (5, GAS - 12))

    def test_what_a_read_copies_costs_under_later_rules(self) -> None:
        replay = StorageReplay(self.call(), 2)
        self.assertEqual(replay.storage_calls[0].cost, 203)

    def test_out_of_gas(self) -> None:
        replay = StorageReplay(self.call(), 1)
        replay.end_by(self.receipt(300, End.OUT_OF_GAS), 300)
        self.assertEqual(replay.last_cost, 300 - (GAS - 12))

    def test_free_ends(self) -> None:
        replay = StorageReplay(self.call(), 1)
        replay.end_by(self.receipt(GAS - 12, End.BAD_LENGTH), 1000)
        self.assertEqual(replay.last_cost, 0)

    def test_sums_that_differ(self) -> None:
        with self.assertRaises(UserError) as caught:
            StorageReplay(self.call(), 1).end_by(self.receipt(GAS + 1), 1000)
        self.assertEqual(str(caught.exception), f"the steps cost {GAS} gas, and the receipt says {GAS + 1}; please report it")

    def test_the_lines_of_a_trace(self) -> None:
        replay = StorageReplay(self.call(), 1)
        receipt = self.receipt(GAS)
        replay.end_by(receipt, 1000)
        places = traces.Places.__new__(traces.Places)
        chains = {0x10000: "start", 0x10004: "start", 0x10008: "start", 0x10010: "vote", 0x10014: "vote", 0x10018: "vote"}
        places.chains = {pc: [Inlined(name, f"/src/a.c:{pc % 16}")] for pc, name in chains.items()}
        self.assertEqual(list(traces.storage_lines(replay, places, receipt, View())), [
            "storage calls",
            "    step  gas before      gas  pc        call",
            '       1           1      200  00010010  READ "a" up to 64 bytes: 0a0b0c',
            f"{'':41}start > vote",
            f'       5         208       12  00010008  RETURN "hi"  6869  26984',
            f"{'':41}start a.c:8",
        ])
        self.assertEqual(list(traces.sum_lines(traces.bars_of(replay, places, "call 0"))), [
            "gas by function",
            "  of its own     with calls          function",
            "     200  90.9 %       200  90.9 %  READ",
            "      12   5.5 %        12   5.5 %  RETURN",
            "       5   2.3 %       205  93.2 %  vote",
            "       3   1.4 %       220 100.0 %  start",
        ])

    def test_a_program_that_dies(self) -> None:
        for text, message in {"exit 0": "rvstm debug ended before it answered", "echo rvstm: elf BadMagic 2 >&2; exit 1":
                              "rvstm: elf BadMagic 2"}.items():
            program = Path(self.write("dies", f"#!/bin/sh\n{text}\n"))
            program.chmod(0o755)
            with self.subTest(text), self.assertRaises(UserError) as caught, Debugger(CallOf(program, "a", 0)) as session:
                session.here()
            self.assertEqual(str(caught.exception), message)

    def test_a_folder(self) -> None:
        program = Path(self.write("where", "#!/bin/sh\nread line; echo 0 00000000 $(pwd)\n"))
        program.chmod(0o755)
        with Debugger(CallOf(program, "a", 0, self.folder)) as session:
            self.assertEqual(session.here().text, str(self.folder.resolve()))


class Lines(unittest.TestCase):
    def test_places(self) -> None:
        self.assertEqual(place_of(b"7 00010004 lw x5,0(x6)\n"), Place(7, 0x10004, "lw x5,0(x6)"))
        for answer in (b"", b"what\n", b"refused AtEnd 2\n", b"7 10004 lw\n", b"x 00010004 lw\n"):
            with self.subTest(answer), self.assertRaises(UserError):
                place_of(answer)

    def test_turns(self) -> None:
        """Calls and returns as the calling convention's table of hints has them: x1 and x5 are links."""
        for text, turn in {
            "jal x1,16": Turn.CALL, "jal x5,16": Turn.CALL, "jal x0,16": Turn.PLAIN, "jalr x1,0(x6)": Turn.CALL,
            "jalr x0,0(x1)": Turn.RETURN, "jalr x0,0(x5)": Turn.RETURN, "jalr x0,4(x1)": Turn.PLAIN, "jalr x0,0(x6)": Turn.PLAIN,
            "ecall": Turn.ECALL, "ebreak": Turn.PLAIN, "fetch-fault": Turn.PLAIN, "": Turn.PLAIN,
        }.items():
            self.assertIs(replays.turn_of(text), turn)

    def test_frames(self) -> None:
        entry = Frame()
        inner = entry.callee(0x100).callee(0x200)
        self.assertIs(entry.callee(0x100).callee(0x200), inner)
        self.assertIs(inner.returned_to(0x204), entry.callee(0x100))
        self.assertIs(inner.returned_to(0x104), entry)
        self.assertIs(inner.returned_to(0x300), inner)
        self.assertIs(entry.returned_to(4), entry)

    def test_texts_of_storage_calls(self) -> None:
        key = Key(bytes(32))
        for number, data, amount, answer, text in (
            (0, None, 0, None, "READ 00 up to 9 bytes: no answer"), (0, None, 0, 2**32 - 1, "READ 00 up to 9 bytes: absent"),
            (0, None, 0, 2**32 - 2, "READ 00 up to 9 bytes: longer"), (0, None, 0, 5, "READ 00 up to 9 bytes: outside memory"),
            (1, b"", 0, None, "WRITE 00: -"), (1, None, 0, None, "WRITE 00: outside memory"), (2, None, 0, None, "REMOVE 00"),
            (5, None, 2**64 - 1, None, "ADD 00: +18446744073709551615"), (4, b"no", 0, None, 'REVERT "no"  6e6f  28526'),
            (6, None, 0, None, "ECALL 6"), (2**32 - 1, None, 0, None, "ECALL 4294967295"),
        ):
            with self.subTest(text):
                step = StorageStep(0, 0, number, key, 9, data, amount, answer=answer)
                self.assertEqual(step.text(View()), text)
        self.assertEqual(StorageStep(0, 0, 2, None, 0, None, 0).text(View()), "REMOVE a key outside memory")


class Charges(unittest.TestCase):
    def test_costs(self) -> None:
        """The tables of docs/contracts.md."""
        for text, cost in {"addi x1,x2,3": 1, "ebreak": 1, "mulhu x1,x2,x3": 4, "remu x1,x2,x3": 16, "sb x1,0(x2)": 2}.items():
            self.assertEqual(charges.of_instruction(text), cost)
        for row, cost in {
            (0, 64, 10, 1): 200, (0, 64, 10, 2): 210, (1, 10, 0, 1): 440, (2, 0, 0, 1): 300, (3, 7, 0, 1): 17, (4, 0, 0, 1): 10,
            (5, 0, 0, 3): 300,
        }.items():
            self.assertEqual(charges.of_storage_call(*row), cost)


class Heads(InFolder):
    def test_the_head_of_a_call(self) -> None:
        path = self.write("a.block", "rvblock 2\ngas 3\nprogram 0 a.elf\nprogram 1 b.elf\nstore 00 01\ncall 1 500 -\ncall 0 9 00\n")
        self.assertEqual(blockfiles.head_of_call(path, 0), CallHead(3, "b.elf", 500, b""))
        self.assertEqual(blockfiles.head_of_call(path, 1), CallHead(3, "a.elf", 9, b"\0"))
        old = self.write("b.block", "rvblock 1\nprogram 0 a.elf\ncall 0 7 -\n")
        self.assertEqual(blockfiles.head_of_call(old, 0), CallHead(1, "a.elf", 7, b""))

    def test_files_that_changed(self) -> None:
        for text in ("", "rvblock 1\n", "call 0 7 -\n", "program 0 a\ncall x 7 -\n", "program 0\ncall 0 7 -\n", "\n"):
            path = self.write("a.block", text)
            with self.subTest(text), self.assertRaises(UserError) as caught:
                blockfiles.head_of_call(path, 0)
            self.assertEqual(str(caught.exception), f"{path}: it is not the block file that rvstm ran")
