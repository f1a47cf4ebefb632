"""Conflicts: the text of `rvstm conflicts`, by the form of docs/formats.md, and the picture of it."""

import unittest
from xml.etree import ElementTree

from rvstm_tools.errors import UserError
from rvstm_tools.pictures import waits
from rvstm_tools.pictures.waits import Picture
from rvstm_tools.texts import conflicts
from rvstm_tools.texts.conflicts import Wait, WaitedKey, WaitingCall
from rvstm_tools.texts.keys import Key
from rvstm_tools.texts.views import View
from unit.helpers import InFolder, called

A, B = b"a".ljust(32, b"\0"), b"b".ljust(32, b"\0")
TEXT = f"""\
writers {A.hex()} 0 1
writers {B.hex()} 1 2
call 0 gas 10 path 10
wait 1 0 {A.hex()}
call 1 gas 20 path 30
call 2 gas 5 path 5
wait 3 0 {A.hex()}
wait 3 2 {B.hex()}
call 3 gas 7 path 37
key {A.hex()} writers 2 waits 3
key {B.hex()} writers 2 waits 1
all calls 4 gas 42 path 37
"""


class Text(unittest.TestCase):
    def test_the_calls_and_the_keys(self) -> None:
        found = conflicts.conflicts_of(TEXT)
        a, b = Key(A), Key(B)
        self.assertEqual(
            found.calls,
            [
                WaitingCall(10, 10, []),
                WaitingCall(20, 30, [Wait(0, a)]),
                WaitingCall(5, 5, []),
                WaitingCall(7, 37, [Wait(1, a), Wait(0, a), Wait(2, b)]),  # from call 0 on, the nearest first
            ],
        )
        self.assertEqual(found.keys, [WaitedKey(a, 2, 3), WaitedKey(b, 2, 1)])
        self.assertEqual((found.gas, found.path, found.waits()), (42, 37, 4))

    def test_a_block_without_calls(self) -> None:
        found = conflicts.conflicts_of("all calls 0 gas 0 path 0\n")
        self.assertEqual((found.calls, found.keys, found.gas, found.path), ([], [], 0, 0))

    def test_hostile_texts(self) -> None:
        wrong = "line 1 of the conflicts is not one of theirs: "
        for text, message in {
            "": "`rvstm conflicts` printed no line `all`",
            "call 0 gas 10 path 10\n": "`rvstm conflicts` printed no line `all`",
            "nonsense\n": f"{wrong}nonsense",
            "\n": wrong,
            f"wait 1 0 {A.hex()}\n": f"{wrong}wait 1 0 {A.hex()[:51]}",
            "call 0 gas x path 10\n": f"{wrong}call 0 gas x path 10",
            f"call 0 gas {'9' * 5000} path 1\n": f"{wrong}call 0 gas {'9' * 49}",
            "all calls 0 gas 0\n": f"{wrong}all calls 0 gas 0",
            f"writers {A.hex()}\n": f"{wrong}writers {A.hex()[:52]}",
        }.items():
            with self.subTest(text[:40]), self.assertRaises(UserError) as caught:
                conflicts.conflicts_of(text)
            self.assertEqual(str(caught.exception), message)


class OfAPicture(unittest.TestCase):
    def setUp(self) -> None:
        self.picture = Picture("the <block>", conflicts.conflicts_of(TEXT), View({Key(B): "table:b&c:1"}))

    def titles(self) -> list[str]:
        root = ElementTree.fromstring(self.picture.svg())
        return [title.text or "" for title in root.iter("{http://www.w3.org/2000/svg}title")]

    def test_the_longest_path(self) -> None:
        self.assertEqual(self.picture.chain, {0, 1, 3})

    def test_all_waits_and_calls_are_in_it(self) -> None:
        calls = ["call 0: 10 gas, path 10", "call 1: 20 gas, path 30", "call 2: 5 gas, path 5", "call 3: 7 gas, path 37"]
        lines = [
            "call 3 waits for call 0 at \"a\"", "call 3 waits for call 2 at table:b&c:1",
            "call 1 waits for call 0 at \"a\"", "call 3 waits for call 1 at \"a\"",
        ]
        self.assertEqual(self.titles(), lines + calls)

    def test_a_call_is_right_of_those_that_it_waits_for(self) -> None:
        for call, box in zip(self.picture.conflicts.calls, self.picture.boxes):
            for wait in call.waits:
                self.assertGreater(box.left, self.picture.boxes[wait.writer].right)

    def test_heading_and_legend(self) -> None:
        self.assertEqual(self.picture.heading()[0], "the <block>: 4 calls, 42 gas, 4 waits; the longest path has 37 gas")
        self.assertIn("1.14 times as fast", self.picture.heading()[1])  # 42 / 37
        texts = [row.text for row in self.picture.legend(4)]
        self.assertEqual(texts[1:], ['"a": 3 waits, changed by 2 calls', "table:b&c:1: 1 wait, changed by 2 calls"])
        self.assertEqual(self.picture.legend(3)[-1].text, "3 of 4 waits are drawn")

    def test_no_calls(self) -> None:
        svg = Picture("none", conflicts.conflicts_of("all calls 0 gas 0 path 0\n"), View()).svg()
        self.assertIn("none: 0 calls, 0 gas, 0 waits; the longest path has 0 gas", svg)
        ElementTree.fromstring(svg)

    def test_long_names_are_cut(self) -> None:
        self.assertEqual(waits.name_of(Key(bytes(31) + b"\1"), View()), f"{'0' * 18}..{'0' * 17}1")


class Command(InFolder):
    def program(self, text: str) -> str:
        path = self.write("program", f"#!/bin/sh\n{text}\n")
        (self.folder / "program").chmod(0o755)
        return path

    def test_a_picture_is_written(self) -> None:
        self.write("text", TEXT)
        out = self.folder / "out.svg"
        words = ["conflicts", "--program", self.program(f"cat {self.folder}/text"), "a.block", "--svg", str(out)]
        self.assertEqual(called(*words), (0, "", ""))
        self.assertIn("a.block: 4 calls", out.read_text(encoding="utf-8"))

    def test_a_refusal_names_the_line(self) -> None:
        block = self.write("a.block", "rvblock 1\nprogram 0 a.elf\nprogram 1 b.elf\ncall x\n")
        refused = 'echo "rvstm: block 4 BadLine 2" >&2; exit 1'
        words = ["conflicts", "--program", self.program(refused), block, "--svg", f"{self.folder}/out"]
        self.assertEqual(called(*words), (1, "", f"conflicts: {block}, line 4: rvstm: block 4 BadLine 2\n"))

    def test_a_refusal_names_the_program(self) -> None:
        block = self.write("a.block", "rvblock 1\nprogram 0 a.elf\nprogram 1 b.elf\n")
        refused = 'grep -q b.elf "$2" && { echo "rvstm: elf BadMagic 2" >&2; exit 1; }; echo end'
        words = ["conflicts", "--program", self.program(refused), block, "--svg", f"{self.folder}/out"]
        self.assertEqual(called(*words), (1, "", f"conflicts: {block}, line 3, b.elf: rvstm: elf BadMagic 2\n"))

    def test_wrong_command_lines(self) -> None:
        for words in (list[str](), ["a.block"], ["a.block", "--svg"], ["a.block", "b.block", "--svg", "out"]):
            self.assertEqual(called("conflicts", *words)[0], 2)
