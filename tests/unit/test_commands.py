"""The commands as a user calls them: output, errors and statuses."""

import io
import json
import os
import signal
import subprocess
import sys
import unittest
import xml.etree.ElementTree as ElementTree
from pathlib import Path
from unittest import mock

from rvstm_tools import commandline, endings, errors
from rvstm_tools.errors import Status, UserError
from rvstm_tools.options import Command
from unit.helpers import InFolder, called

LAUNCHER = Path(__file__).resolve().parents[2] / "tools/rvstm-tools"
CALL = 'call a 9 "hi"'
LIST = "program a a.elf\nstore key:1 u8:7\ncall a 9 \"hi\"\nexpect returned \"hi\"\n"
BLOCK = f"rvblock 1\nprogram 0 a.elf\nstore {'0' * 63}1 07\ncall 0 9 6869\n"


class Block(InFolder):
    def test_a_block(self) -> None:
        self.assertEqual(called("block", self.write("a.list", LIST)), (0, BLOCK, ""))

    def test_over_a_result(self) -> None:
        result = self.write("result", f"store {'0' * 63}1 00\nstore {'0' * 63}2 08\nend\n")
        wanted = BLOCK.replace("call", f"store {'0' * 63}2 08\ncall")
        self.assertEqual(called("block", self.write("a.list", LIST), result), (0, wanted, ""))

    def test_a_value_of_the_result_that_the_rules_do_not_allow(self) -> None:
        path, allowed = self.write("a.list", LIST), self.write("allowed", f"store {'0' * 64} {'00' * 64}\nend\n")
        self.assertEqual(called("block", path, allowed)[0], 0)
        result = self.write("result", f"store {'0' * 64} {'00' * 65}\nend\n")
        message = f"block: {result}: a value has 65 bytes, which rules 1 do not allow\n"
        self.assertEqual(called("block", path, result), (1, "", message))

    def test_a_program_that_is_no_elf_file(self) -> None:
        path = self.write("a.list", LIST)
        program = self.write("a.elf", "no program")
        message = f"block: {path}, line 1: {program} is not an ELF file; rvstm refuses the block\n"
        self.assertEqual(called("block", path), (0, BLOCK, message))
        self.write("a.elf", "\x7fELF and more")
        self.assertEqual(called("block", path), (0, BLOCK, ""))

    def test_messages(self) -> None:
        missing, wrong = f"{self.folder}/missing", self.write("wrong.list", "call\n")
        self.assertEqual(called("block", missing), (1, "", f"block: {missing}: No such file or directory\n"))
        self.assertEqual(called("block", str(self.folder)), (1, "", f"block: {self.folder}: Is a directory\n"))
        message = f"block: {wrong}, line 1: call: a program's name, the gas and the input follow it\n"
        self.assertEqual(called("block", wrong), (1, "", message))


class Test(InFolder):
    def program(self) -> str:
        path = self.write("program", "#!/bin/sh\nprintf 'call 0 returned gas 5 pc 00010000 out 6869\\nend\\n'\n")
        Path(path).chmod(0o755)
        return path

    def setUp(self) -> None:
        super().setUp()
        self.write("a.elf", "")

    def test_a_list(self) -> None:
        path = self.write("a.list", LIST)
        wanted = f"passed  {path}: 1 call, expectations: 1\n1 test: 1 passed, 0 failed; 1 call, 1 expectation, 0 not met\n"
        self.assertEqual(called("test", "--program", self.program(), path), (0, wanted, ""))

    def test_a_folder_and_a_filter(self) -> None:
        self.write("b.list", LIST)
        self.write("a.list", LIST.replace('returned "hi"', "reverted"))
        self.write("untested.list", "# nothing\n")
        status, output, _ = called("test", "--program", self.program(), str(self.folder))
        self.assertEqual(status, 1)
        self.assertEqual([line for line in output.splitlines() if line[:1] != " "], [
            f"failed  {self.folder}/a.list: 1 call, expectations: 1 of 1 not met",
            f"passed  {self.folder}/b.list: 1 call, expectations: 1",
            "2 tests: 1 passed, 1 failed; 2 calls, 2 expectations, 1 not met",
        ])
        status, output, _ = called("test", "--program", self.program(), str(self.folder), "--filter", "b.l")
        self.assertEqual((status, output.count("passed  ")), (0, 1))

    def test_status_2_before_any_test_is_run(self) -> None:
        right, wrong = self.write("a.list", LIST), self.write("b.list", LIST + "expect wrong\n")
        forms = "returned, reverted, out-of-gas, trapped, gas at most, same by, no other or a key"
        for words, message in {
            (right, wrong): f"{wrong}, line 5: wrong: none of {forms}",
            (f"{self.folder}/missing.list",): f"{self.folder}/missing.list: No such file or directory",
            (self.write("c.list", "# nothing\n"),): f"{self.folder}/c.list: no line `expect`, so it tests nothing",
            (right, "--filter", "zz"): "none of these lists whose path has zz has a line `expect`",
            (str(self.folder),): f"{wrong}, line 5: wrong: none of {forms}",
        }.items():
            with self.subTest(message):
                self.assertEqual(called("test", "--program", self.program(), *words), (2, "", f"test: {message}\n"))

    def test_a_variant_that_no_program_has(self) -> None:
        """A list that is named has it; of the lists of a folder one does."""
        other, one = self.write("b.list", LIST.replace("a.elf", "b.elf")), self.write("a.list", LIST)
        self.write("a-gnu.elf", "")
        self.write("b.elf", "")
        for words, message in (
            (("gnu", other), f"{other}: no program NAME.elf of it has a NAME-gnu.elf beside it"),
            (("rust", str(self.folder)), "none of these lists has a program NAME.elf with a NAME-rust.elf beside it"),
        ):
            with self.subTest(message):
                said = called("test", "--program", self.program(), "--variant", *words)
                self.assertEqual(said, (2, "", f"test: --variant {words[0]}: {message}\n"))
        for path, tests in {str(self.folder): 3, one: 2}.items():
            status, output, _ = called("test", "--program", self.program(), "--variant", "gnu", path)
            self.assertEqual((status, output.splitlines()[-1].split(":")[0]), (0, f"{tests} tests"))

    def test_lines_of_json(self) -> None:
        self.write("b.list", LIST)
        self.write("a.list", LIST + "expect gas at most 4\nstorage\nexpect key:1 u8:7\n")
        status, output, _ = called("test", "--program", self.program(), "--json", str(self.folder))
        rows = [json.loads(line) for line in output.splitlines()]
        self.assertEqual(status, 1)
        self.assertEqual([row["misses"] for row in rows[:2]], [[
            {"line": 5, "call": 0, "ended": "returned, gas 5", "expected": "expect gas at most 4", "wanted": "gas at most 4", "came": "gas 5", "place": ""},
            {"line": 7, "call": None, "ended": None, "expected": "expect key:1 u8:7", "wanted": "07  7", "came": "gone", "place": ""},
        ], []])
        self.assertEqual([row["gas"] for row in rows[:2]], [[5], [5]])
        self.assertEqual(rows[2], {"kind": "sums", "tests": 2, "failed": 1, "calls": 2, "expectations": 4, "not_met": 2})

    def test_junit(self) -> None:
        """Of two runs one fails, with a letter in its path that XML does not have."""
        self.write("b.list", LIST)
        self.write("a\1<.list", LIST.replace('returned "hi"', "reverted"))
        out = self.folder / "tests.xml"
        self.assertEqual(called("test", "--program", self.program(), "--junit", str(out), str(self.folder))[0], 1)
        (suite,) = ElementTree.parse(out).getroot()
        self.assertEqual([suite.get(name) for name in ("tests", "failures", "errors")], ["2", "1", "0"])
        bad, good = suite
        self.assertEqual((bad.get("name"), good.get("name")), (f"{self.folder}/a\ufffd<.list", f"{self.folder}/b.list"))
        self.assertEqual([failure.get("message") for failure in bad], ["1 of 1 not met"])
        self.assertIn("came    returned", bad[0].text or "")
        self.assertEqual(len(good), 0)

    def test_a_table_of_gas(self) -> None:
        path, table = self.write("a.list", LIST), self.folder / "gas"
        words = ("test", "--program", self.program(), path, "--gas", str(table))
        self.assertEqual(called(*words, "--write")[0], 0)
        self.assertEqual(table.read_text(encoding="utf-8").splitlines()[1:], [f"       5\ta.list\t0\t\t{CALL}"])
        self.assertEqual(called(*words)[0], 0)
        name, row_of = f"a.list, block 0: {CALL}", f"{{}}\ta.list\t0\t\t{CALL}".format
        for row, within, line in (
            (row_of(4), "24.9", f"{name}: 4 -> 5, 25.0 percent more"),
            (row_of(4), "25", None),
            (row_of(10), "0", f"{name}: 10 -> 5, 50.0 percent less"),
            (row_of(0), "100", f"{name}: 0 -> 5 more"),
            ("", "0", f"{name}: 5, and not in the table"),
            (f"{row_of(5)}\n7\ta.list\t1\topen\tcall b 1", "0", "a.list, block 1, open: call b 1: 7 in the table, and not in the list"),
            (f"# 5\n{row_of(5)}\n7\tb.list\t0\t\tcall", "0", None),
        ):
            with self.subTest(row):
                table.write_text(f"{row}\n", encoding="utf-8")
                status, output, _ = called(*words, "--within", within)
                said = [f"1 call of {table} differs by more than {float(within):g} percent", f"    {line}"] if line else []
                said += ["gas by input", "    a.list, other inputs: 1 call, least 5, mean 5, most 5"]
                self.assertEqual((status, output.splitlines()[1:-1]), (int(line is not None), said))
        table.write_text("5 0 a.list\n", encoding="utf-8")
        message = "a row has the gas, the list, the block, the input and the call, with tabs between; --write makes the table again"
        self.assertEqual(called(*words), (2, "", f"test: {table}, line 1: {message}\n"))

    def test_a_table_is_not_written_if_a_test_fails(self) -> None:
        path, table = self.write("a.list", LIST.replace('"hi"', '"ho"')), self.folder / "gas"
        status, output, _ = called("test", "--program", self.program(), path, "--gas", str(table), "--write")
        self.assertEqual((status, table.exists()), (1, False))
        self.assertIn(f"{table} is not written: a test failed\n", output)

    def test_wrong_options(self) -> None:
        for words, message in (
            (("--within", "x"), "--within: x: it is a number of percent"),
            (("--within", "-1"), "--within: -1: it is a number of percent"),
            (("--junit", "/nowhere/a.xml"), "--junit: /nowhere/a.xml: its folder is not there"),
            (("--jobs", "0"), "--jobs: 0: it is a number of at least 1"),
        ):
            with self.subTest(words):
                status, _, faults = called("test", "x", *words)
                self.assertEqual((status, faults.splitlines()[-1]), (2, f"rvstm-tools test: error: argument {message}"))

    def test_options_without_their_table(self) -> None:
        for words in (("--write",), ("--within", "3")):
            self.assertEqual(called("test", "x", "--program", self.program(), *words),
                             (2, "", "test: --within and --write are for --gas FILE\n"))

    def test_no_program(self) -> None:
        path = f"{self.folder}/nowhere"
        with mock.patch.dict(os.environ, {"RVSTM": path}):
            self.assertEqual(called("test", "x"), (2, "", f"test: {path}: no program; RVSTM names it\n"))


class CommandLine(unittest.TestCase):
    def test_help_has_an_example(self) -> None:
        for name in commandline.NAMES:
            with self.subTest(name):
                status, output, _ = called(name, "--help")
                self.assertEqual(status, 0)
                self.assertRegex(output.partition("\nexample:\n")[2], rf"rvstm-tools {name}\b")

    def test_the_help_of_all_names_each(self) -> None:
        status, output, _ = called("--help")
        self.assertEqual(status, 0)
        for name in commandline.NAMES:
            self.assertRegex(output, f"\n    {name}\\s")

    def test_wrong_command_lines(self) -> None:
        for words in ((), ("nothing",), ("block",), ("block", "a", "b", "c"), ("block", "--what", "a"), ("test",),
                      ("test", "--preview", "--program", "x", "y"), ("test", "--variant")):
            with self.subTest(words):
                status, output, faults = called(*words)
                self.assertEqual((status, output), (2, ""))
                self.assertTrue(faults.startswith("usage: rvstm-tools"))

    def ended(self, raised: BaseException) -> tuple[int, str]:
        def run(_: object) -> int:
            raise raised

        run.__module__ = "name"
        command = Command("", "", run, details="nothing")
        with mock.patch.object(commandline, "command_of", lambda _: command), mock.patch.object(commandline, "NAMES", ("name",)):
            status, _, faults = called("name")
        return status, faults

    def test_ends(self) -> None:
        self.assertEqual(self.ended(FileNotFoundError(2, "No such file", "x")), (Status.FAILED, "name: x: No such file\n"))
        self.assertEqual(self.ended(BrokenPipeError()), (Status.FAILED, "name: the output is closed\n"))
        self.assertEqual(self.ended(KeyboardInterrupt()), (Status.INTERRUPTED, "name: interrupted\n"))

    def test_a_signal_that_is_taken_for_an_interrupt(self) -> None:
        before = signal.getsignal(signal.SIGTERM)
        with self.assertRaises(KeyboardInterrupt), errors.ended_by_signal():
            signal.raise_signal(signal.SIGTERM)
        self.assertIs(signal.getsignal(signal.SIGTERM), before)

    def test_letters_that_are_printed_by_their_numbers(self) -> None:
        """Those that the encoding does not have, and those that a terminal obeys."""
        written = io.BytesIO()
        with mock.patch("sys.stdout", io.TextIOWrapper(written, encoding="ascii", write_through=True)):
            errors.print_all_letters()
            print("\u2261\t\x1b[2J\x9b1m\r\u202e")
            self.assertEqual(written.getvalue(), b"\\u2261\t\\x1b[2J\\x9b1m\\r\\u202e\n")
        self.assertEqual(self.ended(UserError("\x1b]0;x\x07")), (Status.FAILED, "name: \\x1b]0;x\\x07\n"))

    def test_a_mistake_of_the_tools_is_no_message(self) -> None:
        for mistake in (KeyError("b"), ValueError("x"), IndexError("y")):
            with self.subTest(mistake), self.assertRaises(type(mistake)):
                self.ended(mistake)
            with self.subTest("a script", mistake=mistake), mock.patch("sys.argv", ["script", "a word"]), self.assertRaises(type(mistake)):
                endings.run(mock.Mock(side_effect=mistake), "")


class Launcher(InFolder):
    def test_from_another_folder(self) -> None:
        self.write("a.list", LIST)
        link = self.folder / "link"
        link.symlink_to(LAUNCHER)
        words = [[sys.executable, "-S", str(launcher), "block", "a.list"] for launcher in (LAUNCHER, link)]
        pipe = subprocess.PIPE
        for run in [subprocess.Popen(word, cwd=self.folder, stdout=pipe, stderr=pipe, encoding="utf-8") for word in words]:
            with self.subTest(run.args):
                self.assertEqual((*run.communicate(), run.returncode), (BLOCK, "", 0))

    def test_a_closed_output(self) -> None:
        path = self.write("a.list", "program a a.elf\n" + "call a 9\n" * 1000)
        line = f"'{LAUNCHER}' block '{path}' | true"
        done = subprocess.run(["bash", "-c", f"{line}; exit ${{PIPESTATUS[0]}}"], capture_output=True, encoding="utf-8", check=False)
        self.assertIn((done.returncode, done.stderr), [(1, "block: the output is closed\n"), (0, "")])
