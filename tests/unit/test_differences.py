"""What is shown of bytes, keys and changes, and of two that differ."""

import unittest

from rvstm_tools.texts import differences, shown
from rvstm_tools.texts.differences import Difference
from rvstm_tools.texts.keys import Key, numbered_key
from rvstm_tools.texts.results import Added, Change, Removed, Written
from rvstm_tools.texts.views import View


class Shown(unittest.TestCase):
    def test_bytes(self) -> None:
        cases = {
            b"": "-",
            b"\0": "00  0",
            b"A": '"A"  41  65',
            b"\x2c\1": "2c01  300",
            b"abc": '"abc"  616263',
            b"\1\0\0\0\0\0\0\x80": "0100000000000080  9223372036854775809",
            b"a\nb": "610a62",
            b"\x7f\x7f\x7f": "7f7f7f",
            b' "~': '" "~"  20227e',
        }
        for data, wanted in cases.items():
            with self.subTest(data):
                self.assertEqual(shown.shown_bytes(data), wanted)

    def test_changes(self) -> None:
        self.assertEqual(shown.shown_change(Written(b"")), "-")
        self.assertEqual(shown.shown_change(Written(b"\1")), "01  1")
        self.assertEqual(shown.shown_change(Removed()), "gone")
        self.assertEqual(shown.shown_change(Added(0)), "+0")

    def test_keys(self) -> None:
        self.assertEqual(View({numbered_key(1): "table:t:a"}).key(numbered_key(1)), "table:t:a")
        for key, wanted in {
            numbered_key(1): "0" * 63 + "1",
            numbered_key(0): "00",
            Key(b"alice".ljust(32, b"\0")): '"alice"',
            Key(b"!~".ljust(32, b"\0")): '"!~"',
            Key(b"a b".ljust(32, b"\0")): "612062",
            Key(b'a"'.ljust(32, b"\0")): "6122",
        }.items():
            self.assertEqual(View().key(key), wanted)


class OfBytes(unittest.TestCase):
    def test_short_ones_are_in_full(self) -> None:
        self.assertEqual(differences.of_bytes(b"no", b""), Difference('"no"  6e6f  28526', "-"))
        self.assertEqual(differences.of_bytes(bytes(40), bytes(39)), Difference("00" * 40, "00" * 39))

    def test_of_long_ones_a_piece_is_around_the_place(self) -> None:
        wanted, came = bytes(10) + b"\1" + bytes(31), bytes(42)
        found = differences.of_bytes(wanted, came)
        self.assertEqual(found.wanted, "..00000000" + "01" + "00" * 15 + "..  (42 bytes)")
        self.assertEqual(found.came, "..00000000" + "00" + "00" * 15 + "..  (42 bytes)")
        self.assertEqual(found.place, "at byte 10")

    def test_one_is_the_beginning_of_the_other(self) -> None:
        found = differences.of_bytes(b"x" * 41, b"x" * 40)
        self.assertEqual(found, Difference('"..xxxxx"  ..7878787878  (41 bytes)', '"..xxxx"  ..78787878  (40 bytes)', "at byte 40"))

    def test_they_part_at_the_beginning(self) -> None:
        found = differences.of_bytes(b"a" + bytes(40), b"")
        self.assertEqual(found, Difference("61" + "00" * 19 + "..  (41 bytes)", "  (0 bytes)", "at byte 0"))


class OfChanges(unittest.TestCase):
    def test_of_different_kinds(self) -> None:
        def difference(wanted: Change, came: Change) -> Difference:
            return View().difference(numbered_key(1), wanted, came)

        self.assertEqual(difference(Removed(), Added(5)), Difference("gone", "+5"))
        long = Written(bytes(41))
        self.assertEqual(difference(Removed(), long), Difference("gone", "00" * 20 + "..  (41 bytes)"))
        self.assertEqual(difference(long, Added(1)), Difference("00" * 20 + "..  (41 bytes)", "+1"))

    def test_values(self) -> None:
        self.assertEqual(View().difference(numbered_key(1), Written(b"\1"), Written(b"\2")), Difference("01  1", "02  2"))


class OfLines(unittest.TestCase):
    def test_short_ones_are_in_full(self) -> None:
        self.assertEqual(differences.of_lines("a" * 100, "no line"), Difference("a" * 100, "no line"))

    def test_long_ones(self) -> None:
        found = differences.of_lines("a" * 30 + "b" * 71, "a" * 30 + "c")
        self.assertEqual(found.wanted, ".." + "a" * 20 + "b" * 40 + "..  (101 letters)")
        self.assertEqual(found.came, ".." + "a" * 20 + "c  (31 letters)")
        self.assertEqual(found.place, "at letter 30")

    def test_cut(self) -> None:
        self.assertEqual(differences.cut("a" * 100), "a" * 100)
        self.assertEqual(differences.cut("a" * 101), "a" * 100 + "..")


