"""ELF files: one that is made by hand, cut at each byte, and names of functions."""

import struct
import time
import unittest
from unittest import mock

from rvstm_tools.debugging import sources
from rvstm_tools.debugging.sources import Inlined, SourceLine
from rvstm_tools.errors import UserError
from rvstm_tools.programs import elf
from rvstm_tools.programs.elf import ElfFile, Function, Segment
from unit.helpers import InFolder

CODE = bytes.fromhex("13000000" "63040000" "73000000")  # addi x0,x0,0; beq x0,x0,8; ecall
NAMES = b"\0start\0_ZN5tally4vote17h0123456789abcdefE\0"


def elf_file(names: bytes = NAMES) -> bytes:
    """A file with one segment of code at 0x10000, and a symbol of each kind."""
    symbols = b"".join(
        struct.pack("<IIIBBH", *row)
        for row in (
            (0, 0, 0, 0, 0, 0),
            (1, 0x10000, 4, 0x12, 0, 1),  # a global function
            (7, 0x10004, 0, 0x10, 0, 1),  # a global label
            (1, 0x10008, 4, 0x00, 0, 1),  # a local label, which is not a function
            (1, 0x10008, 4, 0x12, 0, 0),  # in no section
            (1, 0x10008, 4, 0x12, 0, 99),  # in a section that is not there
        )
    )
    code_at = 52 + 32
    symbols_at = code_at + len(CODE)
    names_at = symbols_at + len(symbols)
    sections_at = names_at + len(names)
    head = b"\x7fELF\1\1\1" + bytes(9)
    head += struct.pack("<HHIIIIIHHHHHH", 2, 243, 1, 0x10000, 52, sections_at, 0, 52, 32, 1, 40, 4, 0)
    segment = struct.pack("<8I", 1, code_at, 0x10000, 0x10000, len(CODE), 16, 5, 4)
    sections = b"".join(
        struct.pack("<10I", *row)
        for row in (
            (0,) * 10,
            (0, 1, 6, 0x10000, code_at, len(CODE), 0, 0, 4, 0),
            (0, 2, 0, 0, symbols_at, len(symbols), 3, 0, 4, 16),
            (0, 3, 0, 0, names_at, len(names), 0, 0, 1, 0),
        )
    )
    return head + segment + CODE + symbols + names + sections


class Files(InFolder):
    def file(self) -> ElfFile:
        return ElfFile(self.write("a.elf", elf_file()))

    def test_what_it_loads(self) -> None:
        file = self.file()
        self.assertEqual(file.segments, [Segment(0x10000, 5, 16, CODE)])
        self.assertEqual(file.words(), {0x10000: 0x13, 0x10004: 0x463, 0x10008: 0x73})
        self.assertEqual([file.is_code(at) for at in (0xFFFF, 0x10000, 0x1000F, 0x10010)], [False, True, True, False])

    def test_its_functions(self) -> None:
        file = self.file()
        symbol = "_ZN5tally4vote17h0123456789abcdefE"
        self.assertEqual(file.functions, [Function(0x10000, 4, "start"), Function(0x10004, 0, symbol)])
        self.assertEqual(file.function_at(0x10000), "start")
        self.assertEqual(file.function_at(0x10004), "tally::vote")
        self.assertEqual(file.function_at(0x10008), "tally::vote")  # a label has no end
        self.assertEqual(file.function_at(0x20000), "no code")

    def test_without_symbols(self) -> None:
        data = bytearray(elf_file())
        data[32:36] = bytes(4)  # no table of sections
        file = ElfFile(self.write("b.elf", bytes(data)))
        self.assertEqual((file.functions, file.function_at(0x10004)), ([], "b.elf"))

    def test_a_cut_at_each_byte(self) -> None:
        data = elf_file()
        for end in range(len(data)):
            path = self.write("cut.elf", data[:end])
            with self.subTest(end), self.assertRaises(UserError) as caught:
                ElfFile(path)
            self.assertEqual(str(caught.exception), f"{path}: not an ELF file of 32 bits, or only a part of one")

    def test_tables_of_headers_are_bounded(self) -> None:
        """Each would take minutes or gigabytes: headers in one place, symbols or names that are read again and again."""
        data, most = elf_file(), (0xFFFF).to_bytes(2, "little")
        table = int.from_bytes(data[32:36], "little")
        symbols = data[table + 2 * 40 : table + 3 * 40]
        for wrong in (
            data[:46] + bytes(2) + most + data[50:], data[:42] + bytes(2) + most + data[46:], data[:44] + b"\x09" + data[45:] + bytes(999),
            data[:table + 40] + symbols + data[table + 80 :],
        ):
            path, began = self.write("wrong.elf", wrong), time.process_time()
            with self.assertRaises(UserError):
                ElfFile(path)
            self.assertLess(time.process_time() - began, 1)
        long = ElfFile(self.write("long.elf", elf_file(NAMES[:-1] + b"x" * elf.LONGEST_NAME + b"\0")))
        self.assertEqual(max(len(function.symbol) for function in long.functions), elf.LONGEST_NAME)


class PlainNames(unittest.TestCase):
    def test_names(self) -> None:
        for symbol, name in {
            "main": "main",
            "_ZN5tally4vote17h0123456789abcdefE": "tally::vote",
            "core::fmt::write::h0123456789abcdef": "core::fmt::write",
            "_ZN4core3ptr27drop$LT$$RF$str$C$$u7e$$GT$17h0123456789abcdefE": "core::ptr::drop<&str,~>",
            "_ZN12_$u7b$a$u7d$1b17h0123456789abcdefE": "{a}::b",
            "_ZN5tally4vote": "_ZN5tally4vote",  # not whole
            "_ZN99999999999999999999aE": "_ZN99999999999999999999aE",
            "_ZN1a$uffffffff$17h0123456789abcdefE": "_ZN1a$uffffffff$17h0123456789abcdefE",
            "": "",
        }.items():
            with self.subTest(symbol):
                self.assertEqual(elf.plain_name(symbol), name)


class OfSources(InFolder):
    SAID = (
        "0x10000\nhelper\n/src/a.h:7 (discriminator 3)\nstart\n/src/a.c:12\n"
        "0x10004\n??\n??:0\n0x10008\nvote\n/src/a.c:?\n"
    )

    def tool(self, text: str, status: int = 0) -> str:
        said = self.write("said", text)
        path = self.write("tool", f"#!/bin/sh\ncat >/dev/null; cat {said}; echo wrong >&2; exit {status}\n")
        (self.folder / "tool").chmod(0o755)
        return path

    def test_functions_and_lines(self) -> None:
        file = ElfFile(self.write("a.elf", elf_file()))
        chains = sources.chains_of(file, [0x10000, 0x10004, 0x10008], self.tool(self.SAID))
        self.assertEqual(chains[0x10000], [Inlined("start", "/src/a.c:12"), Inlined("helper", "/src/a.h:7 (discriminator 3)")])
        self.assertEqual(chains[0x10004], [Inlined("tally::vote", "")])
        self.assertEqual(chains[0x10008], [Inlined("vote", "/src/a.c:?")])

    def test_a_label_is_no_function(self) -> None:
        """What llvm-addr2line 14 prints of a jump's target in a function of Rust's own library, whose lines are not there."""
        file = ElfFile(self.write("a.elf", elf_file()))
        self.assertEqual(sources.chains_of(file, [0x10004], self.tool("0x10004\n.LBB0_1\n??:0\n")), {0x10004: [Inlined("tally::vote", "??:0")]})

    def test_without_a_tool(self) -> None:
        file = ElfFile(self.write("a.elf", elf_file()))
        self.assertEqual(sources.chains_of(file, [0x10000], None), {0x10000: [Inlined("start", "")]})
        with mock.patch("shutil.which", lambda _: None):
            self.assertIsNone(sources.address_tool())

    def test_a_tool_that_fails(self) -> None:
        file, tool = ElfFile(self.write("a.elf", elf_file())), self.tool("", 3)
        with self.assertRaises(UserError) as caught:
            sources.chains_of(file, [0x10000], tool)
        self.assertEqual(str(caught.exception), f"{tool} ended with status 3: wrong")

    def test_places(self) -> None:
        for line, short, place in (
            ("/src/a.h:7 (discriminator 3)", "a.h:7", SourceLine("/src/a.h", 7)), ("/src/a.c:12", "a.c:12", SourceLine("/src/a.c", 12)),
            ("??:0", "", None), ("/src/a.c:?", "", None), ("/src/a.c:0", "", None), ("", "", None), ("??:7", "", None),
        ):
            with self.subTest(line):
                self.assertEqual(sources.short_place(line), short)
                self.assertEqual(sources.source_line(line), place)

    def test_another_program(self) -> None:
        path, other = self.write("a.elf", elf_file()), self.write("a.lines.elf", elf_file().replace(CODE, CODE[::-1]))
        sources.check_is_of(ElfFile(path), path)
        with self.assertRaises(UserError) as caught:
            sources.check_is_of(ElfFile(other), path)
        message = f"{other}: not the program of {path} with its lines: make both from one source with one compiler"
        self.assertEqual(str(caught.exception), message)
