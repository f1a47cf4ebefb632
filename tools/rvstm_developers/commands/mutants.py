import argparse
import ast
import contextlib
import io
import os
import re
import shutil
import subprocess
import sys
import threading
import unittest
from collections import Counter, defaultdict
from collections.abc import Iterable, Iterator, Mapping, Sequence
from concurrent.futures import ThreadPoolExecutor
from dataclasses import dataclass
from pathlib import Path
from types import FrameType
from typing import Any

from rvstm_developers.texts import TOP, new_folder
from rvstm_tools.errors import UserError
from rvstm_tools.options import JOBS, Command, argument

TOOLS, TESTS = TOP / "tools", TOP / "tests"
EQUAL, TELLING = (TESTS / "unit" / f"{kind}_mutants.txt" for kind in ("equal", "telling"))
VERDICTS = (
    "texts/expectations.py", "testing", "sessions/replays.py", "sessions/kept.py", "exploring/runs.py", "exploring/models.py",
    "releases/verifying.py", "releases/archives.py",
)
FAILED = re.compile(r"^(?:FAIL|ERROR): \S+ \(([\w.]+)\)", re.MULTILINE)
LONGEST = 20  # seconds that the tests of a mutant may take
TURNED: dict[type[ast.cmpop], type[ast.cmpop]] = {
    ast.Eq: ast.NotEq, ast.NotEq: ast.Eq, ast.Lt: ast.LtE, ast.LtE: ast.Lt, ast.Gt: ast.GtE, ast.GtE: ast.Gt, ast.In: ast.NotIn,
    ast.NotIn: ast.In, ast.Is: ast.IsNot, ast.IsNot: ast.Is,
}
Places = Mapping[tuple[str, int], Sequence[str]]  # for each line of the tools, by module, the tests that reach it


@dataclass(frozen=True)
class Mutant:
    """One changed place of a module: the bytes from `start` to `end` become `text`."""

    module: str  # its path below rvstm_tools
    function: str
    lines: range
    start: int
    end: int
    was: str
    text: str
    number: int  # how many equal changes the function has before this one

    def __str__(self) -> str:
        number = f" ({self.number + 1})" if self.number else ""
        return f"{self.module} {self.function}{number}: {' '.join(self.was.split())} -> {' '.join(self.text.split())}"

    def tests(self, places: Places) -> list[str]:
        """The tests that reach the place. What runs as the module is imported is reached by each test of the module."""
        reach = {test for line in self.lines for test in places.get((self.module, line), ())}
        return sorted(reach or {test for (module, _), tests in places.items() if module == self.module for test in tests})


def written(node: ast.expr) -> str:
    return f"({ast.unparse(node)})"


def changes(node: ast.AST, returned: str) -> Iterator[tuple[ast.AST, str]]:
    """The changes of a node: the replaced part, and the text for it. `returned` is the function's annotation."""
    match node:
        case ast.Compare(left=left, ops=operators, comparators=others):
            for index, operator in enumerate(operators):
                yield node, written(ast.Compare(left, [*operators[:index], TURNED[type(operator)](), *operators[index + 1 :]], others))
            if len(operators) > 1:
                yield node, written(ast.Compare(left, operators[:-1], others[:-1]))
        case ast.BoolOp(op=connection, values=parts):
            yield node, written(ast.BoolOp(ast.And() if isinstance(connection, ast.Or) else ast.Or(), parts))
            for index in range(len(parts)):
                kept = [*parts[:index], *parts[index + 1 :]]
                yield node, written(kept[0] if len(kept) == 1 else ast.BoolOp(connection, kept))
        case ast.UnaryOp(op=ast.Not(), operand=operand):
            yield node, written(operand)
        case ast.If(test=test) | ast.IfExp(test=test):
            yield from ((test, text) for text in ("True", "False"))
        case ast.For(iter=items) | ast.comprehension(iter=items):
            yield items, f"list({ast.unparse(items)})[:-1]"
        case ast.Return(value=ast.Constant(value="")):
            pass  # it has no end to leave out
        case ast.Return(value=ast.expr() as value) if returned.startswith(("list", "str", "bytes", "tuple")):
            yield value, f"({ast.unparse(value)})[:-1]"
        case ast.Raise():
            yield node, "pass"
        case ast.Constant(value=bool() | int() as value):
            yield node, f"{value + 1 if type(value) is int else not value}"


class Finder(ast.NodeVisitor):
    """Collects the mutants of a module, function by function, except in texts with braces."""

    def __init__(self, module: str, source: bytes) -> None:
        self.module, self.source, self.names, self.returned = module, source, list[str](), ""
        self.starts = [0]
        for line in source.splitlines(keepends=True):
            self.starts.append(self.starts[-1] + len(line))
        self.counts = Counter[tuple[str, str, str]]()
        self.found: list[Mutant] = []

    def generic_visit(self, node: ast.AST) -> None:
        if isinstance(node, ast.JoinedStr):
            return
        for part, text in changes(node, self.returned):
            self.add(part, text)
        super().generic_visit(node)

    def add(self, part: Any, text: str) -> None:
        start = self.starts[part.lineno - 1] + part.col_offset
        end = self.starts[part.end_lineno - 1] + part.end_col_offset
        same = function, was, _ = ".".join(self.names) or "-", self.source[start:end].decode(), text
        lines = range(part.lineno, part.end_lineno + 1)
        self.found.append(Mutant(self.module, function, lines, start, end, was, text, self.counts[same]))
        self.counts[same] += 1

    def visit_ClassDef(self, node: ast.ClassDef | ast.FunctionDef) -> None:
        node.decorator_list.clear()  # whether a class is frozen, say, no test has to find
        self.names.append(node.name)
        super().generic_visit(node)
        self.names.pop()

    def visit_FunctionDef(self, node: ast.FunctionDef) -> None:
        before, self.returned = self.returned, ast.unparse(node.returns) if node.returns else ""
        self.visit_ClassDef(node)
        self.returned = before


def mutants_of(modules: Iterable[str]) -> Iterator[Mutant]:
    root = TOOLS / "rvstm_tools"
    for name in modules:
        path = root / name
        if not path.exists():
            raise UserError(f"{path} is no module and no package of the tools")
        for file in sorted(path.rglob("*.py")) if path.is_dir() else [path]:
            finder = Finder(str(file.relative_to(root)), file.read_bytes())
            finder.visit(ast.parse(finder.source))
            yield from finder.found


def all_tests(suite: unittest.TestSuite) -> Iterator[unittest.TestCase]:
    for test in suite:
        yield from all_tests(test) if isinstance(test, unittest.TestSuite) else [test]


def reaching_tests() -> Places:
    """Runs all tests once, each traced in its own threads."""
    root = str(TOOLS / "rvstm_tools") + os.sep
    found, seen = defaultdict[tuple[str, int], list[str]](list), set[tuple[str, int]]()

    def trace(frame: FrameType, event: str, value: object) -> Any:
        if not frame.f_code.co_filename.startswith(root):
            return None
        seen.add((frame.f_code.co_filename[len(root) :], frame.f_lineno))
        return trace

    sys.path.insert(0, str(TESTS))
    with contextlib.chdir(TESTS):
        for test in all_tests(unittest.defaultTestLoader.discover("unit", top_level_dir=".")):
            seen.clear()
            nothing = io.TextIOWrapper(io.BytesIO(), encoding="utf-8")  # one for each test, since a test may detach it
            with contextlib.redirect_stdout(nothing), contextlib.redirect_stderr(nothing):
                threading.settrace(trace)
                sys.settrace(trace)
                unittest.TestSuite([test]).run(unittest.TestResult())
                sys.settrace(None)
                threading.settrace(None)  # type: ignore[arg-type]  # as sys.settrace takes it
            for place in seen:
                found[place].append(test.id())
    return found


def killer(copy: Path, mutant: Mutant, tests: Sequence[str]) -> str:
    """The first of some tests that fails over a mutant in a copy of the checkout; empty if there is none."""
    path = copy / "tools" / "rvstm_tools" / mutant.module
    source = path.read_bytes()
    path.write_bytes(source[: mutant.start] + mutant.text.encode() + source[mutant.end :])
    try:
        words = [sys.executable, "-B", "-m", "unittest", "-f", *tests]
        ended = subprocess.run(words, cwd=copy / "tests", capture_output=True, encoding="utf-8", timeout=LONGEST, check=False)
    except subprocess.TimeoutExpired:
        return "none ended in time"
    finally:
        path.write_bytes(source)
    found = FAILED.search(ended.stderr)
    return (found[1] if found else "none began") if ended.returncode else ""


def killers(tried: Sequence[tuple[Mutant, Sequence[str]]], jobs: int) -> list[str]:
    """The killer of each mutant, of the tests that reach it. A job has a copy of the tools and the tests."""

    def of_part(part: Sequence[tuple[Mutant, Sequence[str]]]) -> list[str]:
        with new_folder("mutants-") as copy:
            for path in TOP.iterdir():
                if path in (TOOLS, TESTS):
                    shutil.copytree(path, copy / path.name, symlinks=True, ignore=shutil.ignore_patterns("__pycache__", ".mypy_cache"))
                else:
                    (copy / path.name).symlink_to(path)
            return [killer(copy, mutant, tests) if tests else "" for mutant, tests in part]

    with ThreadPoolExecutor(jobs) as pool:
        parts = list(pool.map(of_part, [tried[number::jobs] for number in range(jobs)]))
    return [parts[index % jobs][index // jobs] for index in range(len(tried))]


def rows_of(path: Path) -> dict[str, str]:
    """The mutants that a file lists, each with what it has after it."""
    lines = path.read_text(encoding="utf-8").splitlines()
    return {mutant: text for mutant, _, text in (line.rpartition(" | ") for line in lines if not line.startswith("#"))}


def try_modules(modules: Sequence[str], jobs: int) -> list[Mutant]:
    found, equal, places = list(mutants_of(modules)), rows_of(EQUAL), reaching_tests()
    tried = [(mutant, mutant.tests(places)) for mutant in found if str(mutant) not in equal]
    by = killers(tried, jobs)
    left = [mutant for (mutant, _), test in zip(tried, by) if not test]
    counts, same, lives = (Counter(m.module for m in some) for some in (found, (m for m in found if str(m) in equal), left))
    print("| module | mutants | killed | mean the same | left |", "|---|---|---|---|---|", sep="\n")
    for module in counts:
        print(f"| {module} | {counts[module]} | {counts[module] - same[module] - lives[module]} | {same[module]} | {lives[module]} |")
    return left


def try_telling(jobs: int) -> list[Mutant]:
    """The telling mutants that the test beside each does not find. A change that no place has any more is refused."""
    rows, found = rows_of(TELLING), {str(mutant): mutant for mutant in mutants_of(VERDICTS)}
    if missing := [name for name in rows if name not in found]:
        raise UserError(f"{TELLING}: no place of the tools changes so: {missing[0]}")
    by = killers([(found[name], [test]) for name, test in rows.items()], jobs)
    print(f"{sum(map(bool, by))} of {len(by)} telling mutants are found, each by its test")
    return [found[name] for name, test in zip(rows, by) if not test]


def run(given: argparse.Namespace) -> int:
    left = try_telling(given.jobs) if given.telling else try_modules(given.modules or VERDICTS, given.jobs)
    print("".join(f"left: {mutant}\n" for mutant in left), end="")
    return 1 if left else 0


COMMAND = Command(
    "Changes one place of the tools at a time, and runs the tests that reach it: at least one of them has to fail.",
    "texts/expectations.py testing",
    run,
    (
        argument("modules", nargs="*", metavar="MODULE", help="modules or packages below rvstm_tools (what decides on `passed`)"),
        argument("--telling", action="store_true", help="the mutants of telling_mutants.txt alone, each by the test beside it"),
        JOBS,
    ),
)
