"""The command line of docs/check: each option once, and what it refuses."""

import contextlib
import io
import unittest
from collections.abc import Sequence
from dataclasses import dataclass
from unittest import mock

from checks import main, versions
from unit import docs_sample as sample


@dataclass(frozen=True)
class Ended:
    """How docs/check ended: its status, and the lines of both outputs."""

    status: int
    out: list[str]
    error: list[str]


def ended(words: Sequence[str]) -> Ended:
    out, error = io.StringIO(), io.StringIO()
    with contextlib.redirect_stdout(out), contextlib.redirect_stderr(error):
        status = main.main(words)
    return Ended(status, out.getvalue().splitlines(), error.getvalue().splitlines())


class CommandLine(unittest.TestCase):
    def test_options(self) -> None:
        rows = {
            ("--calls", "low"): "  Boxed::doubled (even): The double of a number.",
            ("--crates",): "low: Numbers.",
            ("--definitions", "high"): "high/specs/Sums.antt: Sums of boxes.",
            ("--lemmas",): "high: low",
            ("--unused", "low"): "    low/specs/Number.antt unused  13",
            ("--reading", "low::Boxed::doubled"): "| 7 | together, in 1 file | |",
            ("--book", "low::Boxed::doubled", "even"): "twice n = n + n",
        }
        with sample.tree():
            for words, line in rows.items():
                with self.subTest(words):
                    done = ended(words)
                    self.assertEqual((done.status, done.error), (0, []))
                    self.assertIn(line, done.out)

    def test_book_as_a_page(self) -> None:
        with sample.tree() as top:
            done = ended(["--book", "low::Boxed::doubled", "--html", str(top / "book.html")])
            page = (top / "book.html").read_text(encoding="utf-8")
        self.assertEqual(done, Ended(0, [f"{top}/book.html: 7 lines of definitions in 1 file, 0 types of the code, 1 module of the kit"], []))
        self.assertTrue(page.startswith("<!DOCTYPE html>") and page.endswith("</html>\n"))

    def test_picture_of_crates(self) -> None:
        with sample.tree() as top:
            done = ended(["--crates", "--svg", str(top / "crates.svg")])
            picture = (top / "crates.svg").read_text(encoding="utf-8")
        self.assertEqual(done, Ended(0, [f"{top}/crates.svg: 2 crates"], []))
        self.assertTrue(picture.startswith("<svg ") and picture.endswith("</svg>\n"))

    def test_refusals(self) -> None:
        rows = {
            ("--html", "book.html"): (2, "docs/check: --html goes with --book"),
            ("--svg", "/nowhere/crates.svg"): (2, "docs/check: --svg goes with --crates, without the name of a crate"),
            ("--crates", "low", "--svg", "/nowhere/crates.svg"): (2, "docs/check: --svg goes with --crates, without the name of a crate"),
            ("--unused", "middle"): (2, "docs/check: there is no crate middle"),
            ("--reading", "low::gone"): (2, "docs/check: there is no public call and no clause low::gone"),
            ("--calls", "middle"): (2, "docs/check: there is no crate middle"),
            ("--book", "low::Boxed::doubled", "--html", "/nowhere/book.html"): (1, "docs/check: /nowhere/book.html: No such file or directory"),
        }
        with sample.tree():
            for words, (status, line) in rows.items():
                with self.subTest(words):
                    self.assertEqual(ended(words), Ended(status, [], [line]))

    def test_versions(self) -> None:
        places = (versions.Said("right.txt", r"^v (\S+)$", "9.9"), versions.Said("wrong.txt", r"^v (\S+)$", "9.9"), versions.Said("none.txt", r"^v (\S+)$", "9.9"))
        files = {"right.txt": "v 9.9\n", "wrong.txt": "v 9.8\n", "none.txt": "\n"}
        with sample.tree(files), mock.patch.object(versions, "places", lambda: places), mock.patch.object(versions.PRODUCTS, "version", lambda: "9.9"):
            self.assertEqual(
                list(versions.wrong()),
                ["wrong.txt: the version is 9.8, and the program's 9.9", "none.txt: the version is not there, and the program's 9.9"],
            )
