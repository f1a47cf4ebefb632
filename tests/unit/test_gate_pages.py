"""What the blocks of a page are, and when what came is what a page shows."""

import unittest

from gate import pages
from gate.runner import Tool
from unit import docs_sample as sample

PAGE = sample.files_in("pages")["blocks.md"]


class BlocksTest(unittest.TestCase):
    def setUp(self) -> None:
        self.blocks = pages.blocks_of("page.md", PAGE)

    def test_which(self) -> None:
        """Blocks without a command do not count. The others have the numbers of their lines."""
        self.assertEqual([block.name for block in self.blocks], ["page.md:8", "page.md:17", "page.md:22"])

    def test_steps(self) -> None:
        """Commands with what they print, an empty line within it too."""
        first, second = self.blocks[0].steps
        self.assertEqual((first.command, first.printed), ("cd examples/counter", ()))
        self.assertEqual((second.command, second.printed), ("rvstm seq counter.block", ("call 0 ..", "", "end")))

    def test_longer_commands(self) -> None:
        """A text up to its end, and a line that continues, belong to their command."""
        first, second = self.blocks[2].steps
        self.assertEqual(first.command, "cat > one.list <<'END'\n$ no command\nEND")
        self.assertEqual((second.command, second.printed), ("two \\\n    lines", ("out",)))

    def test_comments(self) -> None:
        self.assertEqual([block.reason for block in self.blocks], ["", "the network", ""])
        self.assertEqual(self.blocks[2].needs, (Tool.CLANG, Tool.LLVM))
        self.assertEqual([block.needs_speed for block in self.blocks], [False, False, True])

    def test_of_page(self) -> None:
        """What all blocks of a page need; the comment of one block is not that."""
        self.assertEqual(pages.needs_of_page(f"# Page\n\n<!-- the page needs: clang, cryptography -->\n\n{PAGE}"), (Tool.CLANG, Tool.CRYPTOGRAPHY))
        self.assertEqual(pages.needs_of_page(PAGE), ())


class DifferenceTest(unittest.TestCase):
    def same(self, wanted: str, came: str) -> None:
        self.assertEqual(pages.first_difference(wanted.split("|"), came.split("|")), "")

    def differs(self, wanted: str, came: str, text: str) -> None:
        self.assertIn(text, pages.first_difference(wanted.split("|"), came.split("|")))

    def test_whole(self) -> None:
        """Without a cut all lines must be equal, except for blanks at their ends."""
        self.same("a|b", "a|b  ")
        self.differs("a|b", "a|c", "came c; wanted b")
        self.differs("a|b", "a", "came the end; wanted b")
        self.differs("a", "a|b", "came b after the last line")

    def test_cut_within(self) -> None:
        """`..` within a line matches any text, and nothing else does."""
        self.same("write 0 00..01 ..", "write 0 000001 02")
        self.differs("regs 0 ..", "regs 1 0", "came regs 1 0")
        self.differs("a.c", "abc", "came abc")
        self.same("seq [...] end", "seq 1 .. 2 end")
        self.differs("seq [...] end", "run 1 end", "came run 1 end")

    def test_cut_lines(self) -> None:
        """A line `..` matches any lines, or none; what follows it may come late."""
        self.same("a|..|z", "a|z")
        self.same("a|..|y|z", "a|b|y|x|y|z")
        self.same("..", "a|b")
        self.same("..|b|..", "a|b|c")
        self.differs("a|..|z", "a|b", "came b; wanted z")
        self.differs("..|b", "b|c", "came c after the last line")
        self.same("a|[...]|z", "a|b|z")

    def test_nothing(self) -> None:
        """A command that a page shows nothing of prints nothing."""
        self.assertEqual(pages.first_difference([], []), "")
        self.assertIn("came a", pages.first_difference([], ["a"]))
