"""What is read of enumerations of refusals, and how a page may differ from them. The sources are a sample, written here."""

import tempfile
import unittest
from collections.abc import Iterator
from contextlib import contextmanager
from pathlib import Path
from unittest import mock

import refusals
from refusals import Enumeration, RefusalRow
from unit import docs_sample as sample

FILES = sample.files_in("refusals")

ENUMERATIONS = (Enumeration("TextFault", "low/src/fault.rt", "text N"), Enumeration("Answer", "low/src/fault.rt", "refused"))
WRONG = {
    ("| `text Memory 2` | Memory ran out. | |\n", ""): "no row says when `text Memory 2` comes: Memory ran out.",
    ("too late", "late"): "`refused turn Late 7` comes by the source if: It comes too late.",
    ("NoHead 1", "NoHead 3"): "the sources do not print `text N NoHead 3`",
}


@contextmanager
def sources(more: str = "") -> Iterator[Path]:
    """The sample in a folder of its own, and the path of its page."""
    with tempfile.TemporaryDirectory() as name:
        crates, page = Path(name) / "crates", Path(name) / "page.md"
        (crates / "low/src").mkdir(parents=True)
        (crates / "low/src/fault.rt").write_text(FILES["fault.rt"] + more, encoding="utf-8")
        page.write_text(FILES["page.md"], encoding="utf-8")
        with mock.patch.multiple(refusals, CRATES=crates, PAGE=page, ENUMERATIONS=ENUMERATIONS):
            refusals.printed.cache_clear()
            yield page
        refusals.printed.cache_clear()


class Refusals(unittest.TestCase):
    def test_read(self) -> None:
        with sources():
            found = [refusal for enumeration in ENUMERATIONS for refusal in refusals.refusals(enumeration)]
        self.assertEqual(
            found,
            [
                RefusalRow("text N NoHead 1", "The first line is missing, or empty."),
                RefusalRow("text Memory 2", "Memory ran out."),
                RefusalRow("refused turn Late 7", "It comes too late."),
            ],
        )

    def test_a_page_that_agrees(self) -> None:
        with sources():
            self.assertEqual(list(refusals.differences()), [])
            self.assertIn("| `text Memory 2` | Memory ran out. |", list(refusals.table_lines()))

    def test_pages_that_differ(self) -> None:
        for (old, new), wanted in WRONG.items():
            with self.subTest(wanted), sources() as page:
                page.write_text(FILES["page.md"].replace(old, new), encoding="utf-8")
                self.assertIn(f"page.md: {wanted}", list(refusals.differences()))

    def test_a_new_area(self) -> None:
        with sources('fn more() -> LineParts {\n    LineParts::without_line("other", "Odd", 1)\n}\n'):
            self.assertEqual(list(refusals.differences()), ["docs/refusals.py: no enumeration has the area other, which the sources print"])
