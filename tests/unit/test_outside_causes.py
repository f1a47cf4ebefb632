"""Tests `rvstm-developers outside-causes` on small sources: each wrong place is found, and each right form passes."""

import contextlib
import io
import tomllib

from rvstm_developers import commandline
from unit import docs_sample as sample
from unit.helpers import InFolder

SOURCES = tomllib.loads((sample.FIXTURES / "outside_causes.toml").read_text(encoding="utf-8"))


class OutsideCauses(InFolder):
    def wrong_places(self, text: str) -> int:
        """How many places of a source the check finds wrong."""
        (self.folder / "crate/src").mkdir(parents=True, exist_ok=True)
        self.write("crate/src/lib.rt", text)
        said = io.StringIO()
        with contextlib.redirect_stdout(said):
            status = commandline.run("outside-causes", [str(self.folder)])
        count = int(said.getvalue().split()[-2])
        self.assertEqual(status, count > 0, said.getvalue())
        return count

    def test_wrong_places_are_found(self) -> None:
        for name, text in SOURCES["wrong"].items():
            with self.subTest(name):
                self.assertGreater(self.wrong_places(text), 0)

    def test_right_forms_pass(self) -> None:
        for name, text in SOURCES["right"].items():
            with self.subTest(name):
                self.assertEqual(self.wrong_places(text), 0)
