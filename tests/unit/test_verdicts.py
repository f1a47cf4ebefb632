"""What the tests of contracts print and count, in each place where a small mistake would turn a verdict or a number.

The results are those of a program that is used in place of rvstm.
"""

import json
from collections.abc import Sequence
from dataclasses import replace
from pathlib import Path
from unittest import mock
from xml.etree import ElementTree

from rvstm_tools.programs.running import Printed, Program
from rvstm_tools.testing import causes, junit, listed, reports, testers
from rvstm_tools.testing.gastables import Gas, GasDifference, GasOfInput, GasTable, OfCall
from rvstm_tools.testing.listed import ListedTest
from rvstm_tools.testing.runs import Run
from rvstm_tools.testing.testers import Tester, Tried
from rvstm_tools.texts.blocks import Rules
from rvstm_tools.texts.results import End, Receipt
from unit.helpers import FakeProgram, InFolder

KEY = "0" * 63 + "1"
BEGIN = "program a a.elf\ncall a 9\n"
OUTPUT = 40  # bytes; longer ones are cut


def result(*calls: str, stored: str = "") -> Printed:
    """A result of calls that end as the words say, such as `returned gas 5 pc 00010000 out 07`."""
    return Printed("".join(f"call {number} {words}\n" for number, words in enumerate(calls)) + f"{stored}end\n")


SEVEN, NO = "returned gas 5 pc 00010000 out 07", "reverted gas 6 pc 00010004 out -"
WRITTEN = f"{SEVEN}\nwrite 0 {KEY} 01"
STORED = f"store {KEY} 01\n"


class InFolderWithProgram(InFolder):
    def setUp(self) -> None:
        super().setUp()
        self.write("a.elf", "")

    def read(self, content: str, name: str = "a.list") -> ListedTest:
        return listed.read_test(Path(self.write(name, content)))

    def tried(self, content: str, printed: Printed | Sequence[Printed], *variants: str, workers: Printed | None = None) -> list[Tried]:
        program = FakeProgram(printed, {2: workers} if workers else None)
        return list(Tester(program).tried([self.read(content)], variants))

    def lines(self, content: str, printed: Printed | Sequence[Printed], *variants: str, workers: Printed | None = None) -> list[str]:
        tried = self.tried(content, printed, *variants, workers=workers)
        return [line.replace(f"{self.folder}/", "") for run in tried for line in reports.lines_of_run(run)]


class Lists(InFolderWithProgram):
    def test_the_last_line_names_a_key_too(self) -> None:
        said = self.lines(f"{BEGIN}expect no other write\nexpect key:1 u8:1\n", result(WRITTEN, stored=STORED))
        self.assertEqual(said, ["passed  a.list: 1 call, expectations: 2"])

    def test_no_variant_has_no_programs_of_its_own(self) -> None:
        test = self.read(BEGIN)
        self.write("a-.elf", "")
        self.assertEqual([program.path for program in test.programs_by("")], ["a.elf"])

    def test_the_storage_of_a_file_begins_a_list(self) -> None:
        self.write("before", f"{STORED}end\n")
        test = self.read(f"storage {self.folder}/before\n{BEGIN}expect returned\n")
        self.assertEqual(([len(part.expectations) for part in test.calls], test.storage), ([1], None))


class Runs(InFolderWithProgram):
    def test_nothing_runs_without_a_program(self) -> None:
        program = FakeProgram(result(SEVEN))
        run = Run(program, self.read("program a b.elf\ncall a 9\n"), self.read("program a b.elf\ncall a 9\n").programs_by(""))
        self.assertEqual((program.blocks, run.refusal), ([], f"{self.folder}/a.list, line 1, b.elf: no such file"))

    def test_each_call_says_how_it_ended(self) -> None:
        said = self.lines(f"{BEGIN}expect reverted\ncall a 8\nexpect returned\n", result(SEVEN, NO))
        self.assertEqual([line for line in said if "ended" in line], [
            "        ended   returned, gas 5", "        ended   reverted at 00010004, gas 6",
        ])

    def test_sizes_and_places(self) -> None:
        registers = ["00000000"] * 32
        registers[12], registers[17] = f"{88:08x}", f"{1:08x}"
        printed = result(f"bad-length gas 6 pc 00010004 out -\nregs {' '.join(registers)}")
        test = self.read(f"{BEGIN}expect returned\n")
        run = Run(FakeProgram(printed), test, test.programs_by(""))
        size = "a WRITE of 88 bytes: at most 64 under rules 1"
        with mock.patch.object(causes, "place_of", return_value="a.c:7 in move") as place_of:
            self.assertEqual(run.ends(run.misses()), {0: f"bad-length at 00010004, gas 6: {size}"})
            place_of.assert_not_called()  # whatever runs in place of rvstm can't replay a call
            run.runner = Program(Path("rvstm"))
            self.assertEqual(run.ends(run.misses()), {0: f"bad-length at a.c:7 in move, gas 6: {size}"})
            place_of.assert_called_once_with(Path("rvstm"), run.blocks[0], 0, self.folder, "a.elf")
            place_of.return_value = ""
            self.assertEqual(run.ends(run.misses()), {0: f"bad-length at 00010004, gas 6: {size}"})

    def test_a_size_needs_registers(self) -> None:
        self.assertEqual(causes.size_of(Receipt(0, End.BAD_LENGTH, 5, 0, b""), Rules.ONE), "")

    def test_workers_print_a_line_more(self) -> None:
        more = Printed(f"{result(SEVEN).text}more\n")
        said = self.lines(f"{BEGIN}expect same by 2 workers\n", result(SEVEN), workers=more)
        self.assertEqual(said[3:5], ["        wanted  `rvstm seq` prints  no line", "        came    more"])

    def test_workers_differ_in_the_second_block(self) -> None:
        """A line after `storage` is of all blocks, one after a call of its block alone."""
        content = f"{BEGIN}block\ncall a 8\nstorage\nexpect same by 2 workers\n"
        said = self.lines(content, [result(SEVEN), result(NO)], workers=result(SEVEN))
        self.assertEqual(said[1:4], ["    storage", "        line 6: expect same by 2 workers", f"        wanted  `rvstm seq` prints  call 0 {NO}"])
        of_call = f"{BEGIN}expect same by 2 workers\nblock\ncall a 8\n"
        self.assertEqual(len(self.lines(of_call, [result(SEVEN), result(NO)], workers=result(SEVEN))), 1)


    def test_gas_counts_unless_it_is_updated(self) -> None:
        (tried,) = self.tried(f"{BEGIN}expect gas at most 4\n", result(SEVEN))
        self.assertEqual(tried.missed, 1)

    def test_a_comment_of_an_updated_line_stays(self) -> None:
        test = self.read(f"{BEGIN}expect gas at most 4 # gas at most 3 once\n")
        self.assertTrue(testers.update(test, {3: 5}))
        self.assertEqual(test.path.read_text(encoding="utf-8"), f"{BEGIN}expect gas at most 5 # gas at most 3 once\n")


class Reports(InFolderWithProgram):
    def test_a_variant_has_no_command_that_shows_more(self) -> None:
        self.write("a-gnu.elf", "")
        said = self.lines(f"{BEGIN}expect reverted\n", result(SEVEN), "gnu")
        self.assertEqual([line for line in said if "more " in line], ["        more    rvstm-tools trace a.list --call 0"])

    def test_the_place_where_long_outputs_part(self) -> None:
        said = self.lines(f"{BEGIN}expect returned {'00' * (OUTPUT + 1)}\n", result(f"returned gas 5 pc 00010000 out {'00' * OUTPUT}"))
        self.assertEqual(said[5], f"        they part at byte {OUTPUT}")

    def test_objects_of_runs(self) -> None:
        self.write("a-gnu.elf", "")
        for tried, variant in zip(self.tried(f"{BEGIN}expect returned u8:7\n", result(SEVEN), "gnu"), ("", "gnu")):
            self.assertEqual(json.loads(reports.json_of_run(replace(tried, seconds=1.23456))), {
                "kind": "test", "list": f"{self.folder}/a.list", "variant": variant, "passed": True, "calls": 1, "expectations": 1,
                "seconds": 1.235, "refusal": "", "gas": [5], "misses": [],
            })
        (failed,) = self.tried(f"{BEGIN}expect reverted\n", result(SEVEN))
        self.assertIs(json.loads(reports.json_of_run(failed))["passed"], False)


class TablesOfGas(InFolderWithProgram):
    OF = OfCall("a.list", 1, "open", "call a 9")
    DIFFERENCES = (GasDifference(OF, 5, 6), GasDifference(OF, None, 7))

    def test_lines(self) -> None:
        said = list(reports.lines_of_gas(self.DIFFERENCES, "gas", 2.5))
        self.assertEqual(said[0], "2 calls of gas differ by more than 2.5 percent")
        self.assertEqual(len(said), 3)

    def test_objects(self) -> None:
        row = {"kind": "gas", "list": "a.list", "block": 1, "input": "open", "call": "call a 9"}
        self.assertEqual([json.loads(reports.json_of_gas(one)) for one in self.DIFFERENCES],
                         [row | {"was": 5, "gas": 6}, row | {"was": None, "gas": 7}])
        self.assertEqual(json.loads(reports.json_of_input(GasOfInput("a.list", "open", [4, 9, 6]))),
                         {"kind": "input", "list": "a.list", "input": "open", "calls": 3, "least": 4, "mean": 6, "most": 9})

    def test_equal_calls_are_numbered_in_each_block(self) -> None:
        self.write("a-gnu.elf", "")
        content = "program a a.elf\ncall a 9\ncall a 8\ncall a 9\ncall a 9\nblock\ncall a 9\n"
        printed = [result(SEVEN, NO, SEVEN, NO), result(NO)]
        found: Gas = GasTable(self.folder / "gas").gas_of(self.tried(content, printed * 2, "gnu"))
        texts = [(0, "call a 9"), (0, "call a 8"), (0, "call a 9 (2)"), (0, "call a 9 (3)"), (1, "call a 9")]
        names = ["a.list", "a.list, gnu"]
        self.assertEqual(list(found), [OfCall(name, block, "", text) for name in names for block, text in texts])

    def test_junit_has_a_case_for_the_table(self) -> None:
        out, (passed,) = self.folder / "tests.xml", self.tried(BEGIN, result(SEVEN))
        cases: list[tuple[str, Sequence[GasDifference], tuple[str, str, list[str] | None]]] = [
            ("", [], ("1", "0", None)), ("gas", [], ("2", "0", [])), ("gas", self.DIFFERENCES, ("2", "1", ["2 calls differ"])),
        ]
        for table, differences, wanted in cases:
            with self.subTest(table=table, differences=len(differences)):
                junit.write(out, [replace(passed, seconds=1.5)], differences, table)
                text = out.read_text(encoding="utf-8")
                self.assertTrue(text.startswith("<?xml version='1.0' encoding='utf-8'?>"))
                (suite,) = ElementTree.fromstring(text)
                case = next((case for case in suite if case.get("name") == f"gas of {table}"), None)
                messages = None if case is None else [failure.get("message") for failure in case]
                self.assertEqual((suite.get("tests"), suite.get("failures"), messages), wanted)
                self.assertEqual(suite.get("time"), "1.500")
                if case is not None and len(case):
                    self.assertEqual((case[0].text or "").splitlines(), [one.said() for one in differences])
