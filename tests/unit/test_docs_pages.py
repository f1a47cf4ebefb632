"""What the check finds wrong in a page: a table of pages with one mistake each, and one without."""

import tomllib
import unittest

from checks import main, markdown, pages
from unit import docs_sample as sample

FILES = sample.files_in("pages")
RIGHT = FILES["right.md"]
WRONG = tomllib.loads(FILES["wrong.toml"])["rows"]


class Pages(unittest.TestCase):
    """A page that is right, and the same page with one mistake."""

    def faults(self, text: str) -> list[str]:
        """What is found in a page of docs/ with this text."""
        with sample.tree() as top:
            return list(pages.faults_of(top / "docs/page.md", text, pages.options_of(main.parser())))

    def test_right(self) -> None:
        self.assertEqual(self.faults(RIGHT), [])

    def test_wrong(self) -> None:
        for part, other, fault in WRONG:
            with self.subTest(fault):
                self.assertEqual(RIGHT.count(part), 1, part)
                self.assertEqual(self.faults(RIGHT.replace(part, other))[:1], [f"page.md: {fault}"])

    def test_anchors(self) -> None:
        """As GitHub makes them."""
        rows = {
            "When `run` is refused": "when-run-is-refused",
            "C, Rust and assembly: what to use?": "c-rust-and-assembly-what-to-use",
            "[promises](promises.md) and *more*": "promises-and-more",
            "rv_isa::decode": "rv_isadecode",
            "A - b": "a---b",
        }
        for heading, wanted in rows.items():
            self.assertEqual(markdown.anchor_of(heading), wanted)

    def test_code_has_no_headings_and_no_links(self) -> None:
        text = "# A\n\n    # not one [x](y)\n\n```\n# nor this [x](y)\n```\n"
        self.assertEqual((markdown.anchors_of(text), markdown.links_of(text)), ({"a"}, []))
