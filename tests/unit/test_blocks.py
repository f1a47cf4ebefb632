"""Block files, as docs/formats.md has them."""

import unittest

from rvstm_tools.texts import blocks
from rvstm_tools.texts.blocks import Block, Call, CallLine, ProgramFile, Rules
from rvstm_tools.texts.keys import Key, numbered_key


class Texts(unittest.TestCase):
    def test_an_empty_block(self) -> None:
        self.assertEqual(blocks.text([]), "rvblock 1\n")
        self.assertEqual(blocks.text([], rules=Rules.TWO), "rvblock 2\ngas 2\n")
        self.assertEqual(blocks.text([], rules=Rules.THREE), "rvblock 2\ngas 3\n")

    def test_keys_are_ascending_and_empty_bytes_as_a_hyphen(self) -> None:
        storage = {Key(b"\xff" * 32): b"\1", numbered_key(2): b"", numbered_key(1): b"\7\0"}
        calls = [CallLine(1, 5, b""), CallLine(0, 10_000_000, b"\xab")]
        wanted = (
            "rvblock 1\n"
            "program 0 a.elf\n"
            "program 1 ../b.elf\n"
            f"store {'0' * 63}1 0700\n"
            f"store {'0' * 63}2 -\n"
            f"store {'f' * 64} 01\n"
            "call 1 5 -\n"
            "call 0 10000000 ab\n"
        )
        self.assertEqual(blocks.text(["a.elf", "../b.elf"], storage, calls), wanted)

    def test_programs_are_numbered_in_the_order_of_their_names(self) -> None:
        programs = {"two": ProgramFile("2.elf", 1), "one": ProgramFile("1.elf", 2)}
        block = Block(programs=programs, calls=[Call("one", 9, b"\0", 3), Call("two", 8, b"", 4)])
        calls = "call 1 9 00\ncall 0 8 -\n"
        self.assertEqual(block.text(), f"rvblock 1\nprogram 0 2.elf\nprogram 1 1.elf\n{calls}")
        self.assertEqual(block.text(["x", "y"]), f"rvblock 1\nprogram 0 x\nprogram 1 y\n{calls}")

    def test_longest_value(self) -> None:
        self.assertEqual(Block().longest_value(), 0)
        self.assertEqual(Block({numbered_key(1): bytes(3), numbered_key(2): b""}).longest_value(), 3)
        self.assertEqual([rules.longest_value for rules in Rules], [64, 256, 256])


