"""The book for auditors: what it has of the sample, and that its page has each line and each link."""

import html.parser
import unittest

from checks import book, book_page, sources
from unit import docs_sample as sample

WORDS = ["high::quadrupled", "value", "boxed"]


class Reader(html.parser.HTMLParser):
    """What a page has: the anchors, the links, and the text of its blocks of code."""

    def __init__(self, text: str) -> None:
        super().__init__()
        self.anchors = list[str]()
        self.links = list[tuple[str, str]]()
        self.code = list[str]()
        self.open = list[str]()
        self.feed(text)

    def handle_starttag(self, tag: str, attrs: list[tuple[str, str | None]]) -> None:
        values = dict(attrs)
        self.open.append(tag) if tag not in ("meta", "br") else None
        self.anchors += [values["id"] or ""] if "id" in values else []
        self.code += [""] if tag == "pre" else []
        self.links += [(values.get("href") or "", "")] if tag == "a" else []

    def handle_endtag(self, tag: str) -> None:
        assert self.open.pop() == tag, f"{tag} does not end what is open"

    def handle_data(self, data: str) -> None:
        if "pre" in self.open:
            self.code[-1] += data
        if "a" in self.open:
            self.links[-1] = (self.links[-1][0], self.links[-1][1] + data)


class Books(unittest.TestCase):
    def test_text(self) -> None:
        with sample.tree():
            text = "\n".join(book.listed(WORDS))
        whole = [
            "high::quadrupled (value, boxed)\n=====",
            "23 lines of definitions in 2 files, 1 type of the code, 1 module of the kit\n",
            "/// Four times a number,\n/// in two steps. Refused never.\n",
            "    requires { n ≤ 7 }\n    ensures value { result ≡ fourfold n }\n    ensures boxed { HasBox boxed.now }",
            "-- twice a number\nabbrev pub twice : ℕ → ℕ\ntwice n = n + n\n",
            "-- a number with a flag\npub data Flagged : Type 0 where\n  Plain : ℕ → Flagged\n  Raised : Bool → Flagged\n",
            "left out, since no clause of this book cites it: unused",
            "fourfold n = number.twice (number.twice n)\n",
            "struct Boxed, low/src/lib.rt:4\n    /// A box of one number.\n    pub struct Boxed {\n        number: u32,\n    }\n",
            "    what a clause sees of it (ghost Value): Flagged\n",
            "    how its private fields make this up (ghost view): λ b. Plain b.number\n",
            "\nstd Prelude",
            "    Bool, ℕ, ◌+◌, ◌≡◌",
        ]
        for part in whole:
            self.assertIn(part, text)
        self.assertNotIn("unused n = n", text)
        self.assertLess(text.index("twice n = n + n"), text.index("fourfold n ="))

    def test_page_has_each_definition_and_each_link(self) -> None:
        with sample.tree():
            page = Reader(book_page.page_of(book.book_of(WORDS)))
        self.assertEqual(page.open, [])
        self.assertIn("abbrev pub twice : ℕ → ℕ\ntwice n = n + n", page.code)
        self.assertIn("fourfold n = number.twice (number.twice n)", "\n".join(page.code))
        self.assertEqual(len(page.anchors), len(set(page.anchors)))
        self.assertEqual([to for to, _ in page.links if to.removeprefix("#") not in page.anchors], [])
        wanted = {
            "number.twice": "#definition-low-specs-Number.antt.twice",
            "Boxed": "#type-low.Boxed",
            "+": "#kit-std.Prelude",
            "HasBox": "#definition-high-specs-Sums.antt.HasBox",
            "Plain": "#definition-low-specs-Number.antt.Flagged",
        }
        for name, to in wanted.items():
            self.assertIn((to, name), page.links)

    def test_no_field_is_a_link(self) -> None:
        spec = sample.FILES["crates/high/specs/Sums.antt"].replace("b ≡ b", "b ≡ record { fourfold = 1 }")
        with sample.tree({"crates/high/specs/Sums.antt": spec}):
            page = book_page.page_of(book.book_of(WORDS))
        self.assertIn("record { fourfold = 1 }", page)

    def test_the_headline(self) -> None:
        """The definitions of the fold are in the book of the headline as their file has them, and each link of its page leads on."""
        held = book.book_of(["stm_core::drive", "receipts", "store"])
        text = (sources.CRATES / "rv_step/specs/Fold.antt").read_text(encoding="utf-8")
        page = Reader(book_page.page_of(held))
        for name in ("store_after_call", "receipts_of", "store_after"):
            lines = [line for line in text.splitlines() if line.startswith((f"{name} ", f"abbrev pub {name} ", f"unfoldable pub {name} "))]
            self.assertIn("\n".join(lines), page.code)
            self.assertIn("\n".join(lines), "\n".join(book.listed(["stm_core::drive", "receipts", "store"])))
        self.assertEqual([to for to, _ in page.links if to.removeprefix("#") not in page.anchors], [])
        self.assertEqual([held.file for held in held.reading.rows][-1], "rv_step/specs/Fold.antt")
