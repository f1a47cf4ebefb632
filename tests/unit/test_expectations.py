"""Expectations: which words say what, when each is met, and what is reported of wrong ones."""

import unittest
from collections.abc import Callable

from rvstm_tools.errors import UserError
from rvstm_tools.texts import expectations
from rvstm_tools.texts.differences import Difference
from rvstm_tools.texts.expectations import (
    Changes, ChangesNoOther, CostsAtMost, EndsBy, Expectation, Holds, HoldsNoOther, LineDifference, SameByWorkers, Scene,
)
from rvstm_tools.texts.keys import Key, Storage, numbered_key
from rvstm_tools.texts.results import Added, End, Receipt, Removed, Written
from rvstm_tools.texts.views import View

ONE, TWO = numbered_key(1), numbered_key(2)


def scene(*keys: Key, lines: LineDifference | None = None) -> Scene:
    return Scene(frozenset(keys), View({TWO: "table:t:two"}), lambda workers: lines)


def receipt(end: End = End.RETURNED, output: bytes = b"", gas: int = 5) -> Receipt:
    return Receipt(0, end, gas, 0, output, (), {ONE: Written(b"\1")} if end is End.RETURNED else {})


class AfterACall(unittest.TestCase):
    def test_words(self) -> None:
        cases: dict[str, object] = {
            "returned": EndsBy(End.RETURNED),
            'returned ""': EndsBy(End.RETURNED, b""),
            "returned u8:1 00": EndsBy(End.RETURNED, b"\1\0"),
            'reverted "no"': EndsBy(End.REVERTED, b"no"),
            "out-of-gas": EndsBy(End.OUT_OF_GAS),
            "trapped memory-fault": EndsBy(End.MEMORY_FAULT),
            "gas at most 10000000": CostsAtMost(10_000_000),
            "key:1 u8:2": Changes(ONE, Written(b"\2")),
            'key:1 ""': Changes(ONE, Written(b"")),
            "key:1 gone": Changes(ONE, Removed()),
            "key:1 add 18446744073709551615": Changes(ONE, Added(2**64 - 1)),
            "61 00": Changes(Key(b"a".ljust(32, b"\0")), Written(b"\0")),
            '"a" 00': Changes(Key(b"a".ljust(32, b"\0")), Written(b"\0")),
            "no other write": ChangesNoOther(),
            "same by 1 worker": SameByWorkers(1),
            "same by 32 workers": SameByWorkers(32),
        }
        for words, wanted in cases.items():
            with self.subTest(words):
                self.assertEqual(expectations.of_call(words.split(" ")), wanted)

    def test_messages(self) -> None:
        forms = "returned, reverted, out-of-gas, trapped, gas at most, same by, no other or a key"
        trapped = "trapped: it is followed by one of illegal, misaligned, memory-fault, fetch-fault, breakpoint, unknown-call, "
        words_of_lists = (
            'not bytes in hex, "text", u8:N .. u64:N, i8:N .. i64:N, key:text, key:N, account:name, row:TABLE:name, '
            "table:TAG:text or hex:BYTES"
        )
        amount = "an amount is a number of 0 to 18446744073709551615"
        check_messages(self, expectations.of_call, {
            "": f"expect: {forms} follows it",
            "wrong": f"wrong: none of {forms}",
            "wrong:": f"wrong:: {words_of_lists}",
            "out-of-gas 5": "5: nothing follows out-of-gas",
            "trapped": f"{trapped}bad-length, too-many-writes",
            "trapped returned": f"{trapped}bad-length, too-many-writes",
            f"returned {'00' * 257}": f"{'00' * 257}: an output has at most 256 bytes, and this is 257",
            f"00 {'00' * 257}": f"{'00' * 257}: a value has at most 256 bytes, and this is 257",
            f"{'00' * 33} 00": f"{'00' * 33}: a key has at most 32 bytes, and this is 33",
            "gas at most 10000001": "10000001: gas is a number of 0 to 10000000",
            "gas at most -1": "-1: gas is a number of 0 to 10000000",
            f"gas at most {'9' * 5000}": f"{'9' * 5000}: gas is a number of 0 to 10000000",
            "gas at most": "gas: it is `gas at most N` or `same by N workers`",
            "gas 5": "gas: it is `gas at most N` or `same by N workers`",
            "same by 8": "same: it is `gas at most N` or `same by N workers`",
            "same by 8 gas": "same: it is `gas at most N` or `same by N workers`",
            "key:1 00 00 worker": f"worker: {words_of_lists}",
            "same by 0 workers": "0: the count of workers is a number of 1 to 32",
            "same by 33 workers": "33: the count of workers is a number of 1 to 32",
            "no other": "no other: here it is `no other write`",
            "no other key": "no other: here it is `no other write`",
            "key:1": "key:1: a value, `gone` or `add N` follows the key",
            "key:1 add": "add: one amount follows it, and the line follows a call",
            "key:1 add 5 5": "add: one amount follows it, and the line follows a call",
            "key:1 add 18446744073709551616": f"18446744073709551616: {amount}",
            "key:1 add \u0663": f"\u0663: {amount}",
            "key:1 gone 00": f"gone: {words_of_lists}",
        })

    def test_met(self) -> None:
        met: list[tuple[Expectation[Receipt], Receipt]] = [
            (EndsBy(End.RETURNED), receipt(output=b"any")),
            (EndsBy(End.RETURNED, b""), receipt()),
            (EndsBy(End.REVERTED, b"no"), receipt(End.REVERTED, b"no")),
            (EndsBy(End.ILLEGAL), receipt(End.ILLEGAL)),
            (CostsAtMost(5), receipt(gas=5)),
            (Changes(ONE, Written(b"\1")), receipt()),
            (ChangesNoOther(), receipt(End.REVERTED)),
            (SameByWorkers(2), receipt()),
        ]
        for expectation, came in met:
            with self.subTest(expectation):
                self.assertIsNone(expectation.miss(came, scene()))
        self.assertIsNone(ChangesNoOther().miss(receipt(), scene(ONE)))

    def test_missed(self) -> None:
        missed: list[tuple[Expectation[Receipt], Receipt, Difference]] = [
            (EndsBy(End.RETURNED), receipt(End.REVERTED, b"no"), Difference("returned", 'reverted  "no"  6e6f  28526')),
            (EndsBy(End.RETURNED, b""), receipt(End.ILLEGAL), Difference("returned  -", "trapped illegal")),
            (EndsBy(End.RETURNED, b""), receipt(output=b"\1"), Difference("returned  -", "returned  01  1")),
            (EndsBy(End.OUT_OF_GAS), receipt(), Difference("out-of-gas", "returned  -")),
            (EndsBy(End.BAD_LENGTH), receipt(End.OUT_OF_GAS), Difference("trapped bad-length", "out-of-gas")),
            (CostsAtMost(4), receipt(gas=5), Difference("gas at most 4", "gas 5")),
            (Changes(ONE, Written(b"\2")), receipt(), Difference("02  2", "01  1")),
            (Changes(ONE, Removed()), receipt(), Difference("gone", "01  1")),
            (Changes(TWO, Added(7)), receipt(), Difference("+7", "the call leaves table:t:two as it was")),
            (Changes(Key(b"a".ljust(32, b"\0")), Removed()), receipt(End.REVERTED, b"\0\0\0"),
             Difference("gone", 'the call leaves "a" as it was, since it ended reverted  000000')),
            (ChangesNoOther(), receipt(), Difference("no other write", f"{'0' * 63}1: 01  1")),
        ]
        for expectation, came, wanted in missed:
            with self.subTest(expectation):
                self.assertEqual(expectation.miss(came, scene()), wanted)

    def test_long_outputs_part_somewhere(self) -> None:
        found = EndsBy(End.RETURNED, bytes(41)).miss(receipt(output=bytes(40)), scene())
        self.assertEqual(found, Difference("returned  ..0000000000  (41 bytes)", "returned  ..00000000  (40 bytes)", "at byte 40"))

    def test_each_further_change_has_a_line(self) -> None:
        came = receipt()
        came.changes[TWO] = Added(3)
        wanted = Difference("no other write", f"{'0' * 63}1: 01  1\n                table:t:two: +3")
        self.assertEqual(ChangesNoOther().miss(came, scene()), wanted)


class AfterStorage(unittest.TestCase):
    def test_words(self) -> None:
        cases: dict[str, object] = {
            "key:1 u8:2": Holds(ONE, b"\2"),
            'key:1 ""': Holds(ONE, b""),
            "key:1 gone": Holds(ONE, None),
            "no other key": HoldsNoOther(),
            "same by 8 workers": SameByWorkers(8),
        }
        for words, wanted in cases.items():
            with self.subTest(words):
                self.assertEqual(expectations.of_storage(words.split(" ")), wanted)

    def test_messages(self) -> None:
        of_calls = {
            words: f"{words.split(' ')[0]}: it follows a call, not `storage`"
            for words in ("returned", "reverted 00", "out-of-gas", "trapped illegal", "gas at most 5", "gas")
        }
        forms = "returned, reverted, out-of-gas, trapped, gas at most, same by, no other or a key"
        check_messages(self, expectations.of_storage, of_calls | {
            "": f"expect: {forms} follows it",
            "wrong": f"wrong: none of {forms}",
            "no other write": "no other: here it is `no other key`",
            "key:1 add 5": "add: one amount follows it, and the line follows a call",
            "same as": "same: it is `gas at most N` or `same by N workers`",
            "key:1": "key:1: a value, `gone` or `add N` follows the key",
        })

    def test_met_and_missed(self) -> None:
        storage: Storage = {ONE: b"\1"}
        cases: list[tuple[Expectation[Storage], Difference | None]] = [
            (Holds(ONE, b"\1"), None),
            (Holds(TWO, None), None),
            (Holds(ONE, b""), Difference("-", "01  1")),
            (Holds(ONE, None), Difference("gone", "01  1")),
            (Holds(TWO, b"\2"), Difference("02  2", "gone")),
            (HoldsNoOther(), Difference("no other key", f"{'0' * 63}1: 01  1")),
        ]
        for expectation, wanted in cases:
            with self.subTest(expectation):
                self.assertEqual(expectation.miss(storage, scene()), wanted)
        self.assertIsNone(HoldsNoOther().miss(storage, scene(ONE)))


class AfterBoth(unittest.TestCase):
    def test_another_line(self) -> None:
        found = SameByWorkers(2).miss(None, scene(lines=("end", "no line")))
        self.assertEqual(found, Difference("`rvstm seq` prints  end", "no line"))


def check_messages(test: unittest.TestCase, reads: Callable[[list[str]], object], cases: dict[str, str]) -> None:
    """Each of some lines is refused by these words."""
    for words, message in cases.items():
        with test.subTest(words[:40]), test.assertRaises(UserError) as caught:
            reads(words.split(" ") if words else [])
        test.assertEqual(str(caught.exception), message)


