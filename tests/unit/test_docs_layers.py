"""The layers of the crates: their order in crates.txt, and their picture."""

import re
import unittest
from collections.abc import Iterable

from checks import layers
from unit import docs_sample as sample

CRATES = """\
# a comment: of two words
base:
twin:
middle: base twin hex
base_tests: base
top may_wait=3: middle base twin hex
"""


def boxes(picture: str) -> dict[str, tuple[float, float, float]]:
    """By each crate of a picture where its frame begins and ends, and how far down it is."""
    found = re.findall(r'<rect x="([\d.]+)" y="(\d+)" width="([\d.]+)" .*?>(\w+)</text>', picture)
    return {name: (float(left), float(left) + float(width), float(top)) for left, top, width, name in found}


class Layers(unittest.TestCase):
    """What is printed and drawn of small lists of crates."""

    def misplaced(self, *lines: str) -> Iterable[str]:
        with sample.tree({"crates.txt": "\n".join(lines) + "\n"}):
            return list(layers.misplaced())

    def test_order(self) -> None:
        self.assertEqual(self.misplaced("base:", "middle: base hex", "top: middle base hex"), [])
        self.assertEqual(
            self.misplaced("base: top", "middle: base middle", "top: base"),
            ["crates.txt: base uses top, which does not come before it", "crates.txt: middle uses middle, which does not come before it"],
        )

    def test_layers(self) -> None:
        with sample.tree({"crates.txt": CRATES}):
            self.assertEqual(layers.layers(), [["base", "twin"], ["middle", "base_tests"], ["top"]])

    def test_picture(self) -> None:
        with sample.tree({"crates.txt": CRATES}):
            picture = layers.svg()
        # A letter has 7.8 pixels; of a box 8 pixels are left and right of its text, and 12 between two boxes.
        wanted = {"top": (40, 79.4, 60), "middle": (40, 102.8, 96), "base_tests": (114.8, 208.8, 96), "base": (40, 87.2, 132), "twin": (99.2, 146.4, 132)}
        self.assertEqual({name: tuple(round(place, 1) for place in places) for name, places in boxes(picture).items()}, wanted)
        self.assertIn('<svg xmlns="http://www.w3.org/2000/svg" width="400" height="168"', picture)
        self.assertEqual(re.findall(r'<rect [^>]*stroke-dasharray[^>]*/><text [^>]*>(\w+)', picture), ["base_tests"])

    def test_long_rows_fit(self) -> None:
        names = [f"a_crate_with_a_long_name_{number}" for number in range(9)]
        with sample.tree({"crates.txt": "".join(f"{name}:\n" for name in names)}):
            picture = layers.svg()
        ends = [boxes(picture)[name] for name in names]
        self.assertTrue(all(one[1] < other[0] for one, other in zip(ends, ends[1:], strict=False)))
        width = re.search(r'width="(\d+)"', picture)
        self.assertGreater(int(width[1]) if width else 0, ends[-1][1])

    def test_picture_of_other_crates(self) -> None:
        line = "docs/crates.svg: docs/check --crates --svg docs/crates.svg draws another picture"
        with sample.tree({"crates.txt": CRATES}) as top:
            self.assertEqual(list(layers.differences()), [line])
            (top / layers.PICTURE).write_text(layers.svg(), encoding="utf-8")
            self.assertEqual(list(layers.differences()), [])
            (top / layers.PICTURE).write_text(layers.svg().replace("middle", "midst"), encoding="utf-8")
            self.assertEqual(list(layers.differences()), [line])
