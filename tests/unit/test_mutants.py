"""Which changes of a source are tried."""

import ast
import unittest

from rvstm_developers.commands.mutants import Finder


def changed(source: str) -> list[str]:
    """The sources that differ from one in one place."""
    finder = Finder("a.py", source.encode())
    finder.visit(ast.parse(source))
    return [f"{source[: one.start]}{one.text}{source[one.end :]}" for one in finder.found]


class Changes(unittest.TestCase):
    def test_expressions(self) -> None:
        for source, wanted in {
            "a == b": ["(a != b)"],
            "a < b <= c": ["(a <= b <= c)", "(a < b < c)", "(a < b)"],
            "a and not b": ["(a or not b)", "(not b)", "(a)", "a and (b)"],
            "x if a else y": ["x if True else y", "x if False else y"],
            "[x for x in y]": ["[x for x in list(y)[:-1]]"],
            "7": ["8"],
            "True": ["False"],
            "f'{a == b}'": [],
        }.items():
            with self.subTest(source):
                self.assertEqual(changed(source), wanted)

    def test_statements(self) -> None:
        self.assertEqual(changed("def f() -> str:\n    return a\n"), ["def f() -> str:\n    return (a)[:-1]\n"])
        self.assertEqual(changed("def f() -> int:\n    return a\n"), [])
        self.assertEqual(changed("if a:\n    raise b\n"), ["if True:\n    raise b\n", "if False:\n    raise b\n", "if a:\n    pass\n"])
        self.assertEqual(changed("@dataclass(frozen=True)\nclass A:\n    b = 1\n"), ["@dataclass(frozen=True)\nclass A:\n    b = 2\n"])

    def test_equal_changes_are_numbered(self) -> None:
        finder = Finder("a.py", b"def f():\n    g(1, 1)\n")
        finder.visit(ast.parse(finder.source))
        self.assertEqual([str(one) for one in finder.found], ["a.py f: 1 -> 2", "a.py f (2): 1 -> 2"])
