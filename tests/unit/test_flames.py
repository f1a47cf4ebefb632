"""Flame graphs: sums of functions that call themselves and others, and the picture."""

import unittest
from xml.etree import ElementTree

from rvstm_tools.pictures import flames
from rvstm_tools.pictures.flames import Bar, Sum

SVG = "{http://www.w3.org/2000/svg}"


def call() -> Bar:
    """`start` calls `pay`, which calls itself, and READ."""
    root = Bar("call 0")
    root.below(["start"]).own = 10
    root.below(["start", "pay"]).own = 20
    root.below(["start", "pay", "pay"]).own = 5
    root.below(["start", "pay", "pay", "READ"]).own = 200
    root.below(["start", "READ"]).own = 300
    flames.add_totals(root)
    return root


class Sums(unittest.TestCase):
    def test_sums(self) -> None:
        wanted = [Sum(500, 500, "READ"), Sum(25, 225, "pay"), Sum(10, 535, "start"), Sum(0, 535, "call 0")]
        self.assertEqual(flames.sums_of(call()), wanted)

    def test_a_long_chain(self) -> None:
        """10,000 functions in one another need no recursion, of which Python allows 1,000."""
        root = Bar("root")
        bar = root.below(f"f{number}" for number in range(10_000))
        bar.own = 7
        flames.add_totals(root)
        self.assertEqual(root.total, 7)


class Picture(unittest.TestCase):
    def test_bars(self) -> None:
        root = ElementTree.fromstring(flames.svg(call(), "call <0>", ("READ",)))
        titles = [title.text for title in root.iter(f"{SVG}title")]
        self.assertEqual(titles[0], "call 0: 535 gas, 100.0 %, 0 of its own")
        self.assertIn("pay: 225 gas, 42.1 %, 20 of its own", titles)
        bars = [(title.text, group.find(f"{SVG}rect")) for group in root.iter(f"{SVG}g") for title in group.iter(f"{SVG}title")]
        widths = {text: float(bar.attrib["width"]) for text, bar in bars if bar is not None}
        self.assertEqual(widths["start: 535 gas, 100.0 %, 10 of its own"], 1180)
        self.assertEqual(widths["READ: 300 gas, 56.1 %, 300 of its own"], round(1180 * 300 / 535, 2))

    def test_nothing(self) -> None:
        ElementTree.fromstring(flames.svg(Bar("empty"), "nothing", ()))

    def test_labels(self) -> None:
        self.assertEqual(flames.label_of("abcdefgh", 100), "abcdefgh")
        self.assertEqual(flames.label_of("abcdefghijklmnop", 60), "abcde..")  # seven letters of 7.3 pixels
        self.assertEqual(flames.label_of("abcdefgh", 30), "")
