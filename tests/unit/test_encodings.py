"""All Python of the repository: whatever reads or writes a text names its encoding, so that nothing depends on the locale."""

import ast
import os
import re
import unittest
from collections.abc import Iterator
from pathlib import Path

TOP = Path(__file__).resolve().parents[2]
FOLDERS = ("bench", "docs", "examples", "sdk", "tests", "tools")
ENCODING_FOLLOWS = rb"(?:[^()]|\((?:[^()]|\((?:[^()]|\([^()]*\))*\))*\))*\bencoding="
"""Begins within a call, and ends in it, too: what is in brackets in between is whole."""
SUCH_CALL = re.compile(
    rb"(?:read_text|write_text|\bopen|TemporaryFile)\s*\((?!%s)|[(,](?:\s|#.*)*text\s*=(?!=)|universal_newlines" % ENCODING_FOLLOWS
)
"""What each source has in which a call may be without an encoding. The others, which are most, need not be parsed."""
SHEBANG = b"#!/usr/bin/env python3"
OF_PATHS, OF_PROCESSES, OF_FILES = ("read_text", "write_text"), ("run", "Popen", "check_output"), ("open", "NamedTemporaryFile", "TemporaryFile")


def sources() -> Iterator[Path]:
    """All but those in hidden folders, which are caches."""
    for first in FOLDERS:
        for folder, below, names in os.walk(TOP / first):
            below[:] = [name for name in below if not name.startswith(".")]
            yield from (path for path in (Path(folder, name) for name in names) if path.suffix == ".py" or is_script(path))


def is_script(path: Path) -> bool:
    if path.suffix or not path.is_file():
        return False
    with path.open("rb") as file:
        return file.read(len(SHEBANG)) == SHEBANG


def calls_in(source: bytes) -> Iterator[ast.Call]:
    """The calls of a source which may be without an encoding."""
    if SUCH_CALL.search(source):
        yield from (node for node in ast.walk(ast.parse(source)) if isinstance(node, ast.Call))


def name_of(call: ast.Call) -> str:
    """The name of what is called; that of a module's function with the module."""
    match call.func:
        case ast.Name(name):
            return name
        case ast.Attribute(ast.Name("os" | "tarfile" | "gzip" as module), name):
            return f"{module}.{name}"
        case ast.Attribute(_, name):
            return name
    return ""


def opens_a_text(call: ast.Call) -> bool:
    """Whether a call opens a file as a text, by its mode; without one `open` alone does."""
    is_plain = isinstance(call.func, ast.Name) and call.func.id == "open"
    modes = [node.value for node in call.args[is_plain:] if isinstance(node, ast.Constant) and isinstance(node.value, str)]
    return not any("b" in mode for mode in modes) if modes else is_plain


def is_without(call: ast.Call) -> bool:
    """Whether a call is one of a text, and names no encoding."""
    name, given = name_of(call), {word.arg for word in call.keywords}
    if "encoding" in given:
        return False
    if name in OF_PROCESSES:
        return bool(given & {"text", "universal_newlines"})
    return name in OF_PATHS or (name in OF_FILES and opens_a_text(call))


class Encodings(unittest.TestCase):
    def test_each_text_has_one(self) -> None:
        found = [
            f"{path.relative_to(TOP)}:{call.lineno}" for path in sources()
            for call in calls_in(path.read_bytes()) if is_without(call)
        ]
        self.assertEqual(found, [])

    def test_what_is_found(self) -> None:
        for text, is_wrong in {
            "path.read_text()": True, "path.write_text(text)": True, "path.read_text(encoding='ascii')": False, "open(path)": True,
            "open(path, 'w')": True, "open(path, 'rb')": False, "os.open(path, flags)": False, "NamedTemporaryFile()": False,
            "path.write_text(f(g(1)), encoding='ascii')": False, "path.write_text(other.read_text(), encoding='ascii')": True,
            "path.write_text(other.read_text(encoding='ascii'))": True, "path.read_text(), open(path, encoding='ascii')": True,
            "NamedTemporaryFile('w')": True, "run(words, text=True)": True, "run(words)": False, "damage.open(rows)": False,
        }.items():
            with self.subTest(text):
                self.assertIs(any(map(is_without, calls_in(text.encode()))), is_wrong)
