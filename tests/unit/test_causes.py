"""Where a call of a failed test ended, by functions and lines that are written here."""

import unittest
from pathlib import Path
from unittest import mock

from rvstm_tools.debugging import sources
from rvstm_tools.debugging.replays import Frame
from rvstm_tools.debugging.sessions import CallOf
from rvstm_tools.debugging.sources import Chains, Inlined
from rvstm_tools.errors import UserError
from rvstm_tools.programs import finding
from rvstm_tools.programs.running import InTurn, Printed
from rvstm_tools.testing import causes
from unit.helpers import InFolder

PC, FIRST, SECOND = 0x10000, 0x10010, 0x10020
MOVE, MAIN = Inlined("move", "/home/a/token.c:7"), Inlined("main", "/home/a/token.c:3 (discriminator 2)")
IN_SDK = Inlined("fail", f"{finding.sdk_prefix()}rvstm.h:9")
IN_RUST = Inlined("panic", "/rustc/59807616e/library/core/src/panicking.rs:5")
UNKNOWN, WITHOUT_TOOL = Inlined("f", "??:0"), Inlined("f", "")


class OfAddresses(unittest.TestCase):
    def test_the_author_is_the_innermost(self) -> None:
        cases: list[tuple[Chains, Inlined | None]] = [
            ({PC: [MAIN, MOVE]}, MOVE),
            ({PC: [MAIN, IN_SDK]}, MAIN),
            ({PC: [MOVE, IN_RUST]}, MOVE),
            ({PC: [MOVE, UNKNOWN]}, MOVE),
            ({PC: [MOVE, WITHOUT_TOOL]}, MOVE),
            ({PC: [IN_SDK], FIRST: [MAIN, MOVE]}, MOVE),
            ({PC: [IN_SDK], FIRST: [IN_RUST], SECOND: [MAIN]}, MAIN),
            ({PC: [MAIN], FIRST: [MOVE]}, MAIN),
            ({PC: [IN_SDK, UNKNOWN], FIRST: [IN_RUST]}, None),
        ]
        for chains, wanted in cases:
            with self.subTest(chains):
                self.assertEqual(causes.author_place(chains, list(chains)), wanted)

    def test_callers_begin_with_the_innermost(self) -> None:
        self.assertEqual(causes.callers_of(Frame().callee(SECOND).callee(FIRST)), [FIRST, SECOND])
        self.assertEqual(causes.callers_of(Frame()), [])


class OfCalls(InFolder):
    """The place of call 0, which ended at PC, in a folder that has the program, or only beside it its lines."""

    chains: Chains = {PC: [IN_SDK], FIRST: [MAIN, MOVE]}

    def place(self, gas: int = 5, tool: str | None = "tool", caller: int = FIRST) -> str:
        run = InTurn("rvblock 1\n", Printed(f"call 0 returned gas {gas} pc {PC:08x} out -\nend\n"))
        replayed = mock.Mock(last_frame=Frame().callee(caller))
        with (
            mock.patch.object(sources, "address_tool", return_value=tool), mock.patch.object(sources, "check_is_of"),
            mock.patch.object(causes, "ElfFile"), mock.patch.object(sources, "chains_of", side_effect=self.chains_of),
            mock.patch.object(causes, "StorageReplay", return_value=replayed) as self.replay,
        ):
            return causes.place_of(Path("rvstm"), run, 0, self.folder, "a.elf")

    def chains_of(self, _: object, addresses: list[int], tool: str) -> Chains:
        self.assertEqual(tool, "tool")
        if SECOND in addresses:
            raise UserError("the tool failed")
        return {address: self.chains[address] for address in addresses}

    def test_its_own_line(self) -> None:
        self.write("a.lines.elf", "")
        self.chains = {PC: [MOVE]}
        self.assertEqual(self.place(), "token.c:7 in move")
        self.replay.assert_not_called()

    def test_the_line_that_called_the_sdk(self) -> None:
        self.write("a.lines.elf", "")
        self.assertEqual(self.place(gas=1_000_000), "token.c:7 in move")
        (call, rules), _ = self.replay.call_args
        self.assertEqual((call, rules), (CallOf(Path("rvstm"), call.file, 0, self.folder), 1))

    def test_none(self) -> None:
        self.assertEqual(self.place(), "", "no lines")
        self.write("a.lines.elf", "")
        self.assertEqual(self.place(tool=None), "", "no tool")
        self.assertEqual(self.place(gas=1_000_001), "", "too long to be replayed")
        self.replay.assert_not_called()
        self.assertEqual(self.place(caller=SECOND), "", "the tool fails")
        self.chains = {PC: [IN_SDK], FIRST: [IN_SDK]}
        self.assertEqual(self.place(), "", "no line of the author")
