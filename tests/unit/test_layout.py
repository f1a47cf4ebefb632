"""What holds for all files of Python: tests and trials use the tools, and never the other way round."""

import re
import unittest

from unit import TOP

IMPORT = re.compile(r"^\s*(?:from|import) (\w+)", re.M)
MAY_USE = {
    "tools/rvstm_tools": {"rvstm_tools"},
    "docs": {"rvstm_tools", "rvstm_developers", "checks", "refusals"},
    "tools/rvstm_developers": {"rvstm_tools", "rvstm_developers"},
    "tests/gate": {"rvstm_tools", "rvstm_developers", "gate", "embed"},
}
"""The packages of this repository that the files of a folder may import."""
PACKAGES = set[str]().union(*MAY_USE.values(), {"unit"})


class Layout(unittest.TestCase):
    def test_imports_point_one_way(self) -> None:
        for folder, packages in MAY_USE.items():
            for path in sorted((TOP / folder).rglob("*.py")):
                used = PACKAGES.intersection(IMPORT.findall(path.read_text(encoding="utf-8")))
                self.assertLessEqual(used, packages, path)
