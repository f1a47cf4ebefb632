"""Two small crates in a folder of their own, in place of those of the repository."""

import functools
import tempfile
from collections.abc import Iterator, Mapping
from contextlib import contextmanager
from pathlib import Path
from types import ModuleType
from unittest import mock

from checks import calls, citations, crates, definitions, items, markdown, pages, public_names, reading, rule_calls, sources, unused
from unit import TOP

FIXTURES = TOP / "tests/fixtures"
MODULES: tuple[ModuleType, ...] = (calls, citations, crates, definitions, items, markdown, pages, public_names, reading, rule_calls, sources, unused)


def files_in(folder: str) -> dict[str, str]:
    """The files in a folder of tests/fixtures, each by its path from there, without the ending of what rt takes in crates alone."""
    top = FIXTURES / folder
    paths = [path for path in top.rglob("*") if path.is_file()]
    return {str(path.relative_to(top)).removesuffix(".sample"): path.read_text(encoding="utf-8") for path in paths}


FILES = files_in("sample") | dict.fromkeys(("README.md", "CONTRIBUTING.md", "docs/check", "docs/rule_calls.txt"), "")


def forget() -> None:
    for module in MODULES:
        for value in vars(module).values():
            if isinstance(value, functools._lru_cache_wrapper):
                value.cache_clear()


@contextmanager
def tree(others: Mapping[str, str] | None = None) -> Iterator[Path]:
    """The sample crates, with other files beside them, as the repository that the checks are of."""
    with tempfile.TemporaryDirectory() as place:
        top = Path(place)
        for name, text in {**FILES, **(others or {})}.items():
            (top / name).parent.mkdir(parents=True, exist_ok=True)
            (top / name).write_text(text, encoding="utf-8")
        forget()
        with mock.patch.multiple(sources, TOP=top, CRATES=top / "crates"):
            yield top
        forget()
