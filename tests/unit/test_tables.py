"""The reader of tables: what a table may not have fails, and what it has is what was written."""

import unittest

from gate.tables import ChangedImage, Schedule, Table, TableBlock, has_pieces


class TablesTest(unittest.TestCase):
    def test_unknown_words_fail(self) -> None:
        wrong: list[dict[str, list[dict[str, int]]]] = [{"rows": []}, {"row": [{"lines": 1, "output": 1}]}, {"image": [{"at": 0}]}]
        for data in wrong:
            with self.subTest(data=data), self.assertRaises((TypeError, ValueError)):
                Table().add(data)

    def test_contents(self) -> None:
        read = Table()
        read.add({"files": {"a": "1\n"}, "hex": {"b": "ff00"}, "zeros": {"c": 2}, "sizes": {"b": 3}})
        self.assertEqual(read.contents, {"a": b"1\n", "b": b"\xff\0\0", "c": b"\0\0"})

    def test_entries(self) -> None:
        self.assertEqual(Schedule("", "", 2, turns=[(0, 2), (1, 1)]).entries(), ["0\n", "0\n", "1\n"])
        self.assertEqual(Schedule("", "", 2, digits="01\n1\n").entries(), ["0\n", "1\n", "1\n"])

    def test_text_of_a_block(self) -> None:
        block = TableBlock("", ["ECHO", "PUT"], head="rvblock 2\ngas 2\n", lines="call 1 1 -\n")
        self.assertEqual(block.text(), "rvblock 2\ngas 2\nprogram 0 0\nprogram 1 1\ncall 1 1 -\n")

    def test_files_of_an_image(self) -> None:
        self.assertEqual(list(ChangedImage("", changes=[(1, 9)]).files(b"abc")), [b"a\tc"])
        self.assertEqual(list(ChangedImage("", lengths=[0, 2]).files(b"abc")), [b"", b"ab"])

    def test_pieces_have_an_order(self) -> None:
        for pieces, wanted in (("ab", True), ("ba", False), ("aa", False), ("", True)):
            with self.subTest(pieces=pieces):
                self.assertEqual(has_pieces("a b", list(pieces)), wanted)
