"""The developers' commands: which there are, their helps, and wrong command lines; and parts of them that decide."""

import contextlib
import io
import subprocess
import unittest
from unittest import mock

from rvstm_developers import commandline
from rvstm_developers.bench import tables
from rvstm_developers.bench.pictures import LinePicture, Point
from rvstm_developers.texts import TOP
from rvstm_tools.errors import MisuseError


class OfCommands(unittest.TestCase):
    def test_helps(self) -> None:
        names = list(commandline.modules())
        listing = commandline.listing()
        for name in names:
            with self.subTest(name):
                self.assertIn(f"\n  {name} ", listing)
                text = commandline.parser_of(commandline.command_of(name)).format_help()
                self.assertIn(f"\nexample:\n  rvstm-developers {name}", text)

    def test_a_wrong_command_line(self) -> None:
        for name in commandline.modules():
            with self.subTest(name), contextlib.redirect_stderr(io.StringIO()), self.assertRaises(SystemExit) as caught:
                commandline.run(name, ["--no-such-option"])
            self.assertEqual(caught.exception.code, 2)

    def test_no_command(self) -> None:
        with self.assertRaises(MisuseError):
            commandline.run("no-such-command", [])
        for words in (["rvstm-developers"], ["rvstm-developers", "no-such-command"]):
            said, faults = io.StringIO(), io.StringIO()
            with mock.patch("sys.argv", words), contextlib.redirect_stdout(said), contextlib.redirect_stderr(faults):
                self.assertEqual(commandline.main(), 2)
            self.assertEqual(said.getvalue(), "")
            self.assertIn("no command is named", faults.getvalue())

    def test_a_command_runs_from_any_folder(self) -> None:
        for words, said in ((["beside-c", "--help"], "usage: rvstm-developers beside-c"), (["--help"], "  beside-c  ")):
            done = subprocess.run([TOP / "tools/rvstm-developers", *words], cwd="/", capture_output=True, encoding="utf-8", check=True)
            self.assertIn(said, done.stdout)

    def test_help_of_the_gate_starts_no_gate(self) -> None:
        with mock.patch("subprocess.Popen") as started, contextlib.redirect_stdout(io.StringIO()):
            with self.assertRaises(SystemExit):
                commandline.run("gate-cost", ["--help"])
        started.assert_not_called()


class OfParts(unittest.TestCase):
    def test_tables(self) -> None:
        said = io.StringIO()
        with contextlib.redirect_stdout(said):
            tables.print_table(["a", "b"], [["1", "2"]])
        self.assertEqual(said.getvalue(), "| a | b |\n|---|---|\n| 1 | 2 |\n")
        self.assertEqual(tables.ratio([2, 9, 4], [1, 3, 1]), 3)

    def test_a_picture(self) -> None:
        picture = LinePicture(100, 50, 10, 90, 40)
        picture.line([Point(10, 40), Point(90, 20)], "#000000")
        self.assertIn('<polyline points="10,40 90,20" fill="none" stroke="#000000" stroke-width="2"/>', picture.parts)
