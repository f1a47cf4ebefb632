"""Tests of contracts: what a list says of them, their runs, and what is printed.

The results are those of a program that is used in place of rvstm.
"""

from pathlib import Path
from unittest import mock

from rvstm_tools.errors import UserError
from rvstm_tools.programs.running import Printed
from rvstm_tools.testing import causes, listed, reports, testers
from rvstm_tools.testing.listed import CallPart, ListedTest, StoragePart
from rvstm_tools.testing.testers import Tester
from rvstm_tools.texts.blocks import Rules
from rvstm_tools.texts.expectations import CostsAtMost, EndsBy, Holds
from rvstm_tools.texts.keys import numbered_key
from rvstm_tools.texts.lists import STORAGE
from rvstm_tools.texts.results import End, Receipt
from unit.helpers import FakeProgram, InFolder

KEY = "0" * 63 + "1"
ENDED = ["        ended   returned, gas 5", "        more    rvstm-tools trace a.list --call 0"]
BEGIN = "program a a.elf\ncall a 9\n"


def result(gas: int = 5, value: str = "01") -> str:
    """The result of one call that returns 07 and writes a value at a key."""
    return f"call 0 returned gas {gas} pc 00010000 out 07\nwrite 0 {KEY} {value}\nstore {KEY} {value}\nend\n"


class InFolderWithProgram(InFolder):
    def setUp(self) -> None:
        super().setUp()
        self.write("a.elf", "")

    def read(self, content: str, name: str = "a.list") -> ListedTest:
        return listed.read_test(Path(self.write(name, content)))

    def tried(self, content: str, program: FakeProgram, *variants: str, is_update: bool = False) -> list[str]:
        """What is printed of a test, with its sums."""
        tried = list(Tester(program, is_update=is_update).tried([self.read(content)], variants))
        lines = [line for run in tried for line in reports.lines_of_run(run)]
        lines += testers.updated(tried) if is_update else []
        return [line.replace(f"{self.folder}/", "") for line in [*lines, str(reports.sums_of(tried))]]


class Reading(InFolder):
    def read(self, content: str) -> ListedTest:
        return listed.read_test(Path(self.write("a.list", content)))

    def test_parts(self) -> None:
        calls = f"{BEGIN}expect returned\ncall a 9\ncall a 9\nexpect gas at most 7\nexpect out-of-gas\n"
        test = self.read(f"{calls}storage\nexpect key:1 00\n")
        self.assertEqual(test.calls, [CallPart(0, {3: EndsBy(End.RETURNED)}), CallPart(2, {6: CostsAtMost(7), 7: EndsBy(End.OUT_OF_GAS)})])
        self.assertEqual(test.storage, StoragePart({9: Holds(numbered_key(1), b"\0")}))
        self.assertEqual(test.count(), 4)

    def test_a_list_without_expectations(self) -> None:
        self.assertEqual(self.read(BEGIN).count(), 0)
        self.assertEqual(self.read(f"{BEGIN}storage\n").count(), 0)

    def test_messages(self) -> None:
        for content, line, message in (
            ("expect returned\n", 1, "expect: no call is above it"),
            ("expect wrong\n", 1, "expect: no call is above it"),
            (f"{BEGIN}storage x\n", 3, STORAGE),
            (f"{BEGIN}storage\nstorage\n", 4, STORAGE),
            (f"{BEGIN}storage\ncall a 9\n", 4, "call: only lines `expect` may follow `storage`"),
            (f"{BEGIN}storage\nexpect returned\n", 4, "returned: it follows a call, not `storage`"),
            (f"{BEGIN}expect no other key\ncall\n", 3, "no other: here it is `no other write`"),
        ):
            with self.subTest(message), self.assertRaises(UserError) as caught:
                self.read(content)
            self.assertEqual(str(caught.exception), f"{self.folder}/a.list, line {line}: {message}")

    def test_variants(self) -> None:
        test = self.read("program a a.elf\nprogram b b.elf\n")
        self.write("a-gnu.elf", "")
        self.assertEqual([program.path for program in test.programs_by("gnu")], ["a-gnu.elf", "b.elf"])
        self.assertEqual([program.path for program in test.programs_by("")], ["a.elf", "b.elf"])


class Running(InFolderWithProgram):
    def test_passed(self) -> None:
        program = FakeProgram(Printed(result()), {2: Printed(result())})
        content = f"{BEGIN}expect returned u8:7\nexpect same by 2 workers\nstorage\nexpect no other key\nexpect key:1 u8:1\n"
        said = self.tried(content, program)
        self.assertEqual(said, ["passed  a.list: 1 call, expectations: 4", "1 test: 1 passed, 0 failed; 1 call, 4 expectations, 0 not met"])
        self.assertEqual(program.blocks, ["rvblock 1\nprogram 0 a.elf\ncall 0 9 -\n"])

    def test_failed(self) -> None:
        content = f"{BEGIN}  expect  returned u8:8 # no\nexpect gas at most 5\nexpect no other write\nstorage\nexpect key:1 gone\n"
        self.assertEqual(self.tried(content, FakeProgram(Printed(result()))), [
            "failed  a.list: 1 call, expectations: 3 of 4 not met",
            "    line 2, call 0: call a 9",
            "        line 3: expect  returned u8:8 # no",
            "        wanted  returned  08  8",
            "        came    returned  07  7",
            "        line 5: expect no other write",
            "        wanted  no other write",
            f"        came    {KEY}: 01  1", *ENDED,
            "    storage",
            "        line 7: expect key:1 gone",
            "        wanted  gone",
            "        came    01  1",
            "1 test: 0 passed, 1 failed; 1 call, 4 expectations, 3 not met",
        ])

    def test_several_blocks(self) -> None:
        """Each is run over what the ones before it left. An expectation is of the call above it, or of the last storage."""
        content = f"{BEGIN}expect returned u8:7\nblock\nstore key:2 u8:2\ncall a 8\nexpect gas at most 5\nexpect same by 2 workers\n"
        content += "storage\nexpect key:1 u8:1\nexpect key:1 u8:3\n"
        program = FakeProgram([Printed(result()), Printed(result(6, "03"))], {2: Printed(result(6, "03"))})
        said = self.tried(content, program)
        self.assertEqual(said[0], "failed  a.list: 2 calls, expectations: 2 of 5 not met")
        self.assertEqual(said[1:4], ["    line 6, call 1: call a 8", "        line 7: expect gas at most 5", "        wanted  gas at most 5"])
        self.assertEqual(said[5:7], ["        ended   returned, gas 6", "        more    rvstm-tools trace a.list --call 1"])
        self.assertEqual(said[7:10], ["    storage", "        line 10: expect key:1 u8:1", "        wanted  01  1"])
        second = f"rvblock 1\nprogram 0 a.elf\nstore {KEY} 01\nstore {KEY[:-1]}2 02\ncall 0 8 -\n"
        self.assertEqual(program.blocks, ["rvblock 1\nprogram 0 a.elf\ncall 0 9 -\n", second])
        refused = FakeProgram([Printed(result()), Printed("", "rvstm: seq Memory 1")])
        self.assertEqual(self.tried(content, refused)[1], "        a.list, block 1: rvstm: seq Memory 1")

    def test_another_result_by_workers(self) -> None:
        content = f"{BEGIN}expect same by 2 workers\nexpect same by 3 workers\n"
        program = FakeProgram(Printed(result()), {2: Printed(result(gas=6)), 3: Printed("", "rvstm: run Memory 5")})
        self.assertEqual(self.tried(content, program)[2:-1], [
            "        line 3: expect same by 2 workers",
            "        wanted  `rvstm seq` prints  call 0 returned gas 5 pc 00010000 out 07",
            "        came    call 0 returned gas 6 pc 00010000 out 07",
            "        line 4: expect same by 3 workers",
            "        wanted  `rvstm seq` prints  call 0 returned gas 5 pc 00010000 out 07",
            "        came    rvstm: run Memory 5", *ENDED,
        ])

    def test_sizes_that_are_too_large(self) -> None:
        """By the registers of the call: a7 is the number, and a1 or a2 the length."""
        for rules, end, number, second, third, wanted in (
            (1, End.BAD_LENGTH, 1, 0, 88, "a WRITE of 88 bytes: at most 64 under rules 1"),
            (2, End.BAD_LENGTH, 0, 0, 300, "a READ of up to 300 bytes: at most 256 under rules 2"),
            (1, End.BAD_LENGTH, 4, 257, 0, "a REVERT of 257 bytes: at most 256"),
            (2, End.UNKNOWN_CALL, 5, 0, 0, "the storage call ADD, under rules 2"),
            (3, End.UNKNOWN_CALL, 6, 0, 0, "the storage call 6, under rules 3"),
            (1, End.TOO_MANY_WRITES, 1, 0, 8, "a key more than 256, the most that a call changes"),
            (1, End.RETURNED, 3, 8, 0, ""),
        ):
            registers = [0] * 32
            registers[11], registers[12], registers[17] = second, third, number
            self.assertEqual(causes.size_of(Receipt(0, end, 5, 0, b"", tuple(registers)), Rules(rules)), wanted)

    def test_a_refused_program_is_told_with_its_line(self) -> None:
        said = self.tried(f"# one\n{BEGIN}expect returned\n", FakeProgram(Printed("", "rvstm: elf BadMagic 2")))
        self.assertEqual(said[:2], [
            "failed  a.list: 1 call, expectations: 1 of 1 not met",
            "        a.list, line 2, a.elf: rvstm: elf BadMagic 2",
        ])

    def test_a_missing_program(self) -> None:
        said = self.tried("program a b.elf\ncall a 9\nexpect returned\n", FakeProgram(Printed(result())))
        self.assertEqual(said[1], "        a.list, line 1, b.elf: no such file")

    def test_another_refusal_has_no_line(self) -> None:
        said = self.tried(f"{BEGIN}expect returned\n", FakeProgram(Printed("", "rvstm: seq Memory 1")))
        self.assertEqual(said[1], "        a.list: rvstm: seq Memory 1")

    def test_a_program_that_is_not_rvstm(self) -> None:
        for printed, message in {
            "": "nothing was read: rvstm was refused or did not run, and its own line says why",
            "end\n": f"{self.folder}/a.list: the result has 0 calls, and the block 1: the program is not rvstm",
            "hello\n": "line 1 of the result is cut, or not one of a result: hello",
        }.items():
            with self.subTest(printed), self.assertRaises(UserError) as caught:
                self.tried(f"{BEGIN}expect returned\n", FakeProgram(Printed(printed)))
            self.assertEqual(str(caught.exception), message)

    def test_variants_with_programs_of_their_own_run_again(self) -> None:
        self.write("a-gnu.elf", "")
        program = FakeProgram(Printed(result()))
        said = self.tried(f"{BEGIN}expect returned\n", program, "gnu", "other")
        self.assertEqual(said[:2], ["passed  a.list: 1 call, expectations: 1", "passed  a.list, gnu: 1 call, expectations: 1"])
        self.assertEqual(program.blocks[1], "rvblock 1\nprogram 0 a-gnu.elf\ncall 0 9 -\n")


class Updating(InFolderWithProgram):
    def test_the_gas_that_came_is_written(self) -> None:
        before = f"{BEGIN}expect  gas at  most 4 # so far\r\nexpect returned\n"
        said = self.tried(before, FakeProgram(Printed(result(gas=6))), is_update=True)
        self.assertEqual(said[:2], ["passed  a.list: 1 call, expectations: 2", "updated a.list"])
        after = (self.folder / "a.list").read_bytes()
        self.assertEqual(after.decode(), before.replace("most 4", "most 6"))

    def test_the_most_gas_of_all_variants_is_written(self) -> None:
        self.write("a-small.elf", "")
        self.write("a-large.elf", "")
        program = FakeProgram(Printed(result(gas=6)))
        gas = iter([6, 7, 5])
        with mock.patch.object(program, "run", lambda words, folder: Printed(result(gas=next(gas)))):
            said = self.tried(f"{BEGIN}expect gas at most 4\n", program, "large", "small", is_update=True)
        self.assertEqual(said[-2:], ["updated a.list", "3 tests: 3 passed, 0 failed; 3 calls, 3 expectations, 0 not met"])
        self.assertEqual((self.folder / "a.list").read_text(encoding="utf-8"), f"{BEGIN}expect gas at most 7\n")

    def test_nothing_is_written_where_another_line_is_not_met(self) -> None:
        before = f"{BEGIN}expect gas at most 4\nexpect reverted\n"
        said = self.tried(before, FakeProgram(Printed(result())), is_update=True)
        self.assertEqual(said[0], "failed  a.list: 1 call, expectations: 1 of 2 not met")
        self.assertEqual((self.folder / "a.list").read_text(encoding="utf-8"), before)

    def test_nothing_is_written_where_nothing_changes(self) -> None:
        said = self.tried(f"{BEGIN}expect gas at most 5\n", FakeProgram(Printed(result())), is_update=True)
        self.assertEqual(said[1:], ["1 test: 1 passed, 0 failed; 1 call, 1 expectation, 0 not met"])
