"""Where the program is found, what is reported if it is not there, and what a run of it gives."""

import unittest
from pathlib import Path

from rvstm_tools.errors import UserError
from rvstm_tools.options import ProgramChoice
from rvstm_tools.programs import finding, running
from rvstm_tools.programs.finding import Home
from rvstm_tools.programs.running import Printed, Program
from unit.helpers import FakeProgram, InFolder

ANY = ProgramChoice()


class Finding(InFolder):
    def program(self, name: str, script: str = "") -> Path:
        path = Path(self.write(name, f"#!/bin/sh\n{script}\n"))
        path.chmod(0o755)
        return path

    def test_the_order(self) -> None:
        named, by_variable = self.program("named"), self.program("by-variable")
        built = self.folder / "crates/rvstm/out/rvstm"
        place, environment = Home(self.folder), {"RVSTM": str(by_variable)}
        self.assertEqual(finding.find(ProgramChoice(path=named), place, environment), named)
        self.assertEqual(finding.find(ANY, place, environment), by_variable)
        built.parent.mkdir(parents=True)
        self.program("crates/rvstm/out/rvstm")
        self.assertEqual(finding.find(ANY, place, {}), built)
        self.assertEqual(finding.find(ANY, place, {"RVSTM": ""}), built)

    def test_the_unproved_one_comes_before_the_variable(self) -> None:
        (self.folder / "crates/rvstm/out/preview").mkdir(parents=True)
        preview, other = self.program("crates/rvstm/out/preview/rvstm"), self.program("other")
        choice = ProgramChoice(is_preview=True)
        self.assertEqual(finding.find(choice, Home(self.folder), {"RVSTM": str(other)}), preview)

    def test_without_a_checkout(self) -> None:
        beside, on_path = self.program("beside"), self.program("rvstm")
        environment = {"PATH": str(self.folder)}
        self.assertEqual(finding.find(ANY, Home(self.folder, False, beside), environment), beside)
        self.assertEqual(finding.find(ANY, Home(self.folder, False), environment), on_path)

    def test_homes(self) -> None:
        package = self.folder / "share/rvstm-sdk/tools/rvstm_tools"
        package.mkdir(parents=True)
        top = self.folder / "share/rvstm-sdk"
        (top / "sdk").mkdir()
        self.assertEqual(finding.home_of(package), Home(top, False))
        (self.folder / "bin").mkdir()
        program = self.program("bin/rvstm")
        self.assertEqual(finding.home_of(package), Home(top, False, program))
        self.write("share/rvstm-sdk/crates.txt", "")
        self.assertEqual(finding.home_of(package), Home(top))

    def test_homes_of_pip(self) -> None:
        """The package is among Python's, and the SDK is in one of the prefixes."""
        package, prefixes = self.folder / "venv/lib/python3/site-packages/rvstm_tools", [self.folder / "venv", self.folder / "usr"]
        self.assertEqual(finding.home_of(package, prefixes), Home(self.folder / "venv/share/rvstm-sdk", False))
        (self.folder / "usr/share/rvstm-sdk/sdk").mkdir(parents=True)
        self.assertEqual(finding.home_of(package, prefixes), Home(self.folder / "usr/share/rvstm-sdk", False))

    def test_messages(self) -> None:
        checkout, installed, missing = Home(self.folder), Home(self.folder, False), self.folder / "missing"
        path = str(self.folder)
        cases: list[tuple[ProgramChoice, Home, dict[str, str], str]] = [
            (ProgramChoice(path=missing), checkout, {}, f"{missing}: no program; --program names it"),
            (ANY, checkout, {"RVSTM": str(missing)}, f"{missing}: no program; RVSTM names it"),
            (ANY, checkout, {"RVSTM": f"{path}/a/../missing"}, f"{missing}: no program; RVSTM names it"),
            (ANY, checkout, {}, f"{path}/{finding.BUILT}: no program; {finding.WAYS_TO_BUILD}"),
            (ProgramChoice(is_preview=True), checkout, {}, f"{path}/{finding.PREVIEW}: no program; {finding.WAY_TO_PREVIEW}"),
            (ProgramChoice(is_preview=True), installed, {}, f"{path}/{finding.PREVIEW}: no program; {finding.ONLY_IN_CHECKOUT}"),
            (ANY, installed, {"PATH": path}, f"rvstm: no program; {finding.WAYS_TO_INSTALL}"),
        ]
        for choice, place, environment, message in cases:
            with self.subTest(message), self.assertRaises(UserError) as caught:
                finding.find(choice, place, environment)
            self.assertEqual(str(caught.exception), message)

    def test_a_folder_and_a_file_that_may_not_be_run_are_no_programs(self) -> None:
        self.assertFalse(finding.is_program(self.folder))
        self.assertFalse(finding.is_program(Path(self.write("text", "x"))))

    def test_runs(self) -> None:
        script = 'pwd; echo "$@"; printf "\\377"; [ "$1" != refused ] || { echo "rvstm: why" >&2; exit 1; }'
        run = Program(self.program("program", script)).run
        said = f"{self.folder.resolve()}\n"
        self.assertEqual(run(["seq", "x"], self.folder), Printed(f"{said}seq x\n\\xff"))
        self.assertEqual(run(["refused"], self.folder), Printed(f"{said}refused\n\\xff", "rvstm: why"))
        self.assertEqual(Program(self.program("silent", "exit 3")).run([], self.folder).refusal, "rvstm ended with status 3")


class RefusedPath(unittest.TestCase):
    def test_the_path_whose_own_block_is_refused_so(self) -> None:
        program = FakeProgram(Printed("", "rvstm: elf BadMagic 2"))
        found = running.refused_path(program, ["a.elf", "b.elf"], "rvstm: elf BadMagic 2", Path("."))
        self.assertEqual(found, "a.elf")
        self.assertEqual(program.blocks, ["rvblock 1\nprogram 0 a.elf\n"])

    def test_another_reason(self) -> None:
        program = FakeProgram(Printed("end\n"))
        self.assertIsNone(running.refused_path(program, ["a.elf", "a.elf"], "rvstm: elf BadMagic 2", Path(".")))
        self.assertEqual(len(program.blocks), 1)  # each path once
        self.assertIsNone(running.refused_path(program, ["a.elf"], "rvstm: seq Memory 1", Path(".")))
        self.assertEqual(len(program.blocks), 1)
