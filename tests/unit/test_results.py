"""Results: the form of their lines is that of docs/formats.md."""

import unittest

from rvstm_tools.errors import UserError
from rvstm_tools.texts import results
from rvstm_tools.texts.keys import Key, numbered_key
from rvstm_tools.texts.results import Added, End, Receipt, Removed, Result, Written
from unit.helpers import InFolder

KEY = "0" * 63 + "1"
REGISTERS = "regs" + " 00000000" * 31 + " ffffffff\n"
WHOLE = (
    "call 0 returned gas 697 pc 000100fc out 0100000000000000\n" + REGISTERS
    + f"write 0 {KEY} 0100\nwrite 0 {'f' * 64} gone\nwrite 0 {'e' * 64} add 18446744073709551615\nwrite 0 {'d' * 64} -\n"
    "call 1 out-of-gas gas 2000 pc 00010000 out -\n" + REGISTERS + f"store {KEY} 0100\nstore {'d' * 64} -\nend\n"
)


class Reading(unittest.TestCase):
    def test_a_whole_result(self) -> None:
        registers = (0,) * 31 + (0xFFFFFFFF,)
        changes: dict[Key, results.Change] = {
            numbered_key(1): Written(b"\1\0"),
            Key(b"\xff" * 32): Removed(),
            Key(b"\xee" * 32): Added(2**64 - 1),
            Key(b"\xdd" * 32): Written(b""),
        }
        receipts = [
            Receipt(0, End.RETURNED, 697, 0x100FC, b"\1\0\0\0\0\0\0\0", registers, changes),
            Receipt(1, End.OUT_OF_GAS, 2000, 0x10000, b"", registers),
        ]
        self.assertEqual(results.result_of(WHOLE), Result(receipts, {numbered_key(1): b"\1\0", Key(b"\xdd" * 32): b""}))

    def test_a_result_without_calls(self) -> None:
        self.assertEqual(results.result_of("end\n"), Result())

    def test_items_come_as_they_are_read(self) -> None:
        lines = iter(WHOLE.splitlines(keepends=True))
        items = results.items_of(lines)
        first = next(items)
        self.assertIsInstance(first, Receipt)
        self.assertTrue(next(lines).startswith("regs "))  # of call 1, whose line was read to end the first receipt

    def test_traps(self) -> None:
        wanted = "illegal misaligned memory-fault fetch-fault breakpoint unknown-call bad-length too-many-writes"
        self.assertEqual(" ".join(results.TRAPS), wanted)


class Messages(unittest.TestCase):
    def check(self, text: str, message: str) -> None:
        with self.subTest(message), self.assertRaises(UserError) as caught:
            results.result_of(text)
        self.assertEqual(str(caught.exception), message)

    def test_no_whole_result(self) -> None:
        self.check("", "nothing was read: rvstm was refused or did not run, and its own line says why")
        self.check(f"store {KEY} 00\n", "the last line is not `end`, so it is no whole result")
        self.check("end\ncall 0 returned gas 1 pc 00000000 out -\n", "the last line is not `end`, so it is no whole result")

    def test_wrong_lines(self) -> None:
        call = "call 0 returned gas 1 pc 00000000 out -\n"
        wrong = [
            "hello",
            "end",  # without its LF
            "",
            "call 0 returned gas 1 pc 00000000 out ABCD",
            "call 0 returned gas 1 pc 0000000 out -",
            "call 0 eaten gas 1 pc 00000000 out -",
            f"call 0 returned gas {'9' * 20} pc 00000000 out -",
            "regs" + " 00000000" * 31,
            f"store {KEY[1:]} 00",
            f"store {KEY} 000",
            f"write 0 {KEY} add -5",
            f"write 0 {KEY} add {'9' * 21}",
        ]
        for line in wrong:
            ending = "" if line == "end" else "\n"
            self.check(call + line + ending, f"line 2 of the result is cut, or not one of a result: {line[:60]}")

    def test_lines_that_belong_to_no_call(self) -> None:
        self.check(REGISTERS, f"line 1 of the result is cut, or not one of a result: {REGISTERS[:60]}")
        write = f"write 0 {KEY} 00\n"
        self.check(f"store {KEY} 00\n{write}end\n", f"line 2 of the result is cut, or not one of a result: {write[:60]}")


class Storages(InFolder):
    def test_the_storage_of_a_file(self) -> None:
        self.assertEqual(results.read_storage(self.write("result", WHOLE)), {numbered_key(1): b"\1\0", Key(b"\xdd" * 32): b""})

    def test_messages_name_the_file(self) -> None:
        for content, message in {
            b"": "nothing was read: rvstm was refused or did not run, and its own line says why",
            b"store \xff\n": "line 1 of the result is cut, or not one of a result: store \\xff",
        }.items():
            path = self.write("result", content)
            with self.subTest(message), self.assertRaises(UserError) as caught:
                results.read_storage(path)
            self.assertEqual(str(caught.exception), f"{path}: {message}")


