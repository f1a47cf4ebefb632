"""Lists: what each line says, and what is reported of each wrong one."""

from rvstm_tools.errors import UserError
from rvstm_tools.texts import lists
from rvstm_tools.texts.blocks import Call, ProgramFile, Rules
from rvstm_tools.texts.keys import numbered_key
from unit.helpers import InFolder

STRAY = "expect whatever\n"  # a line of a test, which a block passes over


class Reading(InFolder):
    def test_a_whole_list(self) -> None:
        content = 'rules 3\n\nprogram token a.elf # first\nstore key:1 u8:7 "x"\ncall token 50 u16:1\nexpect so\n'
        path = self.write("a.list", content)
        block = lists.read_list(path).blocks[0]
        self.assertEqual(block.rules, Rules.THREE)
        self.assertEqual(block.programs, {"token": ProgramFile("a.elf", 3)})
        self.assertEqual(block.storage, {numbered_key(1): b"\7x"})
        self.assertEqual(block.calls, [Call("token", 50, b"\1\0", 5)])

    def test_blocks(self) -> None:
        """Each has the store lines above its calls. Calls are counted through all of them."""
        text = "program a a.elf\nstore key:1 01\ncall a 5\nblock\nstore key:1 02\ncall a 6\ncall a 7\nblock\nstorage\nexpect key:1 02\n"
        found = lists.read_list(self.write("a.list", text))
        self.assertEqual([block.text() for block in found.blocks], [
            f"rvblock 1\nprogram 0 a.elf\n{rest}" for rest in (
                f"store {numbered_key(1).hex()} 01\ncall 0 5 -\n", f"store {numbered_key(1).hex()} 02\ncall 0 6 -\ncall 0 7 -\n", "")])
        self.assertEqual([found.place_of(number) for number in range(3)], [(0, 0), (1, 0), (1, 1)])
        for number in (-1, 3):
            with self.assertRaises(UserError) as caught:
                found.place_of(number)
            self.assertEqual(str(caught.exception), f"there is no call {number}; its 3 calls count from 0")

    def test_a_file_that_is_included(self) -> None:
        """Its lines are in the place of the line, and its paths start from its folder."""
        (self.folder / "other").mkdir()
        self.write("other/d.dump", f"rvblock 1\nstore {numbered_key(3).hex()} 03\n")
        self.write("other/all", "rules 2 # its rules\n\nprogram a ../b/a.elf\nshape key:1 number:u8\nstorage d.dump\nstore key:1 01\n")
        found = lists.read_list(self.write("a.list", "# first\ninclude other/all\nstore key:2 02\ncall a 5\n"))
        (block,) = found.blocks
        self.assertEqual((block.rules, block.programs), (2, {"a": ProgramFile("b/a.elf", 2)}))
        self.assertEqual(block.storage, {numbered_key(number): bytes([number]) for number in (1, 2, 3)})
        self.assertEqual((found.view.value(numbered_key(1), b"\7"), len(found.lines)), ("number 7", 4))

    def test_store_lines_are_put_over_the_storage(self) -> None:
        path = self.write("a.list", "store key:1 01\nstore key:2 02\n")
        block = lists.read_list(path, {numbered_key(2): b"old", numbered_key(3): b"kept"}).blocks[0]
        self.assertEqual(block.storage, {numbered_key(1): b"\1", numbered_key(2): b"\2", numbered_key(3): b"kept"})

    def test_an_empty_list_is_an_empty_block(self) -> None:
        for content in ("", "\n\n", "# nothing", "storage\nexpect x\nstorage\n"):
            with self.subTest(content):
                self.assertEqual(lists.read_list(self.write("a.list", content)).blocks[0].text(), "rvblock 1\n")

    def test_ends_of_lines(self) -> None:
        for content in (b"program a b\r\nstore 00 01\r\n", b"program a b\rstore 00 01", b"program a b\nstore 00 01"):
            with self.subTest(content):
                block = lists.read_list(self.write("a.list", content)).blocks[0]
                self.assertEqual(block.text(), f"rvblock 1\nprogram 0 b\nstore {'0' * 64} 01\n")

    def test_limits_that_are_met(self) -> None:
        programs = "".join(f"program p{number} {number}.elf\n" for number in range(64))
        calls = f"call p0 10000000 {'00' * 4096}\n" + "call p63 1\n" * 1023
        stores = f"store 01 {'00' * 64}\n"
        block = lists.read_list(self.write("a.list", programs + stores + calls)).blocks[0]
        self.assertEqual((len(block.programs), len(block.calls), block.longest_value()), (64, 1024, 64))
        self.assertEqual(lists.read_list(self.write("b.list", f"rules 2\nstore 01 {'00' * 256}\n")).blocks[0].longest_value(), 256)


class Messages(InFolder):
    def check(self, content: str | bytes, line: int, message: str) -> None:
        path = self.write("wrong.list", content)
        with self.subTest(message), self.assertRaises(UserError) as caught:
            lists.read_list(path).blocks[0]
        self.assertEqual(str(caught.exception), f"{path}, line {line}: {message}")

    def test_kinds(self) -> None:
        self.check("prog a b\n", 1, "prog: not rules, include, program, shape, store, call, block, expect or storage")
        self.check('"call" a\n', 1, '"call": not rules, include, program, shape, store, call, block, expect or storage')
        self.check("storage\nstore 00 00\n", 2, "store: only lines `expect` may follow `storage`")
        self.check("storage\n\nnonsense\n", 3, "nonsense: only lines `expect` may follow `storage`")

    def test_rules(self) -> None:
        message = "rules: the line is `rules 1`, `rules 2` or `rules 3`, and comes before all others"
        for content, line in {
            "rules 4\n": 1,
            "rules\n": 1,
            "rules 01\n": 1,
            "rules 1 2\n": 1,
            "rules 1\nrules 1\n": 2,
            "program a b\nrules 1\n": 2,
        }.items():
            self.check(content, line, message)

    def test_programs(self) -> None:
        self.check("program a\n", 1, "program: a name and a path follow it")
        self.check("program a b c\n", 1, "program: a name and a path follow it")
        self.check('program "a" b\n', 1, '"a": a name has no quotes')
        self.check("program a b\nprogram a c\n", 2, "a: another program line has this name")
        self.check("program a \u00e9.elf\n", 1, "\u00e9.elf: a path has the printable bytes of ASCII alone")
        self.check("".join(f"program p{n} x\n" for n in range(65)), 65, "p64: a block has at most 64 programs")

    def test_keys(self) -> None:
        self.check("store\n", 1, "store: a key and its value follow it")
        self.check("store key:a 00\nstore 61 01\n", 2, "61: another store line of the block has this key")
        self.check("program a b\ncall a 5\nstore 61 01\n", 3, "store: a call is above it; a line `block` begins the next block, and store lines "
                   "come before its calls")
        self.check("include\n", 1, "include: the path of a file follows it")
        other = self.write("other", "program a b\nstore key:a\nstore key:a 01\n")
        self.check("include other\n", 1, f"{other}, line 3: key:a: another store line of the block has this key")
        self.check("program a b\ninclude other\n", 2, f"{other}, line 1: a: another program line has this name")
        for kind in ("call", "block", "expect", "include", "storage", "what"):
            self.write("other", f"# first\n{kind}\n")
            self.check("include other\n", 1, f"{other}, line 2: {kind}: a file that is included has only lines rules, program, shape, store "
                       "and storage DUMP")
        self.check("block 2\n", 1, "block: nothing follows it; it begins the next block")
        self.check("block\nstore key:a 00\nstore 61 01\n", 3, "61: another store line of the block has this key")
        self.check("block\nstorage a.dump\n", 2, lists.STORAGE)
        self.check("storage\nblock\n", 2, "block: only lines `expect` may follow `storage`")
        self.check(f"store 00 {'00' * 65}\n", 1, f"{'00' * 65}: a value under rules 1 has at most 64 bytes, and this is 65")
        self.check(f"rules 2\nstore 00 00 {'00' * 256}\n", 2, "00: a value under rules 2 has at most 256 bytes, and this is 257")

    def test_calls(self) -> None:
        begin = "program a b\n"
        self.check("call a\n", 1, "call: a program's name, the gas and the input follow it")
        self.check("call a 5\nprogram a b\n", 1, "a: no program line above has this name")
        for gas in ("0", "05", "10000001", "5x", "-5", "\u0663", "9" * 5000):
            self.check(f"{begin}call a {gas}\n", 2, f"{gas}: gas is a number of 1 to 10000000")
        self.check(f"{begin}call a 5 {'00' * 4097}\n", 2, f"{'00' * 4097}: an input has at most 4096 bytes, and this is 4097")
        self.check(begin + "call a 5\n" * 1025, 1026, "a: a block has at most 1024 calls")

    def test_the_first_wrong_line_is_told(self) -> None:
        self.check(f"{STRAY}call a\nprogram\n", 2, "call: a program's name, the gas and the input follow it")

    def test_hostile_bytes(self) -> None:
        self.check(b"program a b\n# \xff\n", 2, "not UTF-8")
        self.check(b"\xfe\xff\0r\0u\0l\0e\0s", 1, "not UTF-8")
        self.check(b"\x7fELF\x01\x01\x01\0", 1, "\x7fELF\1\1\1\0: not rules, include, program, shape, store, call, block, expect or storage")
        self.check("store " + "0" * 99_999, 1, "0" * 99_999 + ': not bytes in hex, "text", u8:N .. u64:N, i8:N .. i64:N, '
                   "key:text, key:N, account:name, row:TABLE:name, table:TAG:text or hex:BYTES")

    def test_a_missing_file_is_an_error_of_the_system(self) -> None:
        with self.assertRaises(FileNotFoundError):
            lists.read_list(str(self.folder / "nowhere.list")).blocks[0]


class Dumps(InFolder):
    """A list that begins with the storage of a file."""

    KEYS = f"store {'0' * 63}1 07\nstore {'0' * 63}2 -\n"

    def test_a_storage_under_the_lines_store(self) -> None:
        self.write("dump", f"rvblock 2\ngas 3\n{self.KEYS}")
        block = lists.read_list(self.write("a.list", "storage dump\nstore key:2 u8:9\nstorage\n")).blocks[0]
        self.assertEqual(block.storage, {numbered_key(1): b"\7", numbered_key(2): b"\t"})
        self.assertEqual(block.rules, 3)

    def test_a_result_and_an_older_dump(self) -> None:
        for content in (f"{self.KEYS}end\n", f"rvblock 1\n{self.KEYS}"):
            self.write("dump", content)
            block = lists.read_list(self.write("a.list", "rules 2\nstorage dump\n")).blocks[0]
            self.assertEqual((block.storage, block.rules), ({numbered_key(1): b"\7", numbered_key(2): b""}, 2))

    def test_messages(self) -> None:
        long = f"store {'0' * 64} {'00' * 65}\n"
        for dump, content, line, message in (
            ("end\n", "storage dump dump\n", 1, lists.STORAGE),
            ("end\n", "program a a.elf\ncall a 9\nstorage dump\n", 3, lists.STORAGE),
            ("end\n", "store key:1 00\nstorage dump\n", 2, lists.STORAGE),
            ("end\n", "storage\nstorage dump\n", 2, lists.STORAGE),
            (f"{self.KEYS}end\n", "storage dump\nstorage dump\n", 2, lists.STORAGE),
            ("rvblock 2\ngas 3\n", "rules 2\nstorage dump\n", 2, "dump: the dump is of rules 3, and the list has rules 2"),
            (f"{long}end\n", "storage dump\n", 1, "dump: a value has 65 bytes, which rules 1 do not allow"),
            ("end\n", "storage dump\nrules 2\n", 2, None),
            ("rvblock 3\n", "storage dump\n", 1, "{0}/dump: line 1 is not one of a dump: rvblock 3"),
            ("rvblock 2\n", "storage dump\n", 1, "{0}/dump: line 2 is not one of a dump: "),
            ("rvblock 2\ngas 4\n", "storage dump\n", 1, "{0}/dump: line 2 is not one of a dump: gas 4"),
            ("rvblock 1\nprogram 0 a.elf\n", "storage dump\n", 1, "{0}/dump: line 2 is not one of a dump: program 0 a.elf"),
            ("rvblock 1\nstore 00 00\n", "storage dump\n", 1, "{0}/dump: line 2 is not one of a dump: store 00 00"),
            (self.KEYS, "storage dump\n", 1, "{0}/dump: the last line is not `end`, so it is no whole result"),
        ):
            self.write("dump", dump)
            with self.subTest(content=content, dump=dump), self.assertRaises(UserError) as caught:
                lists.read_list(self.write("a.list", content)).blocks[0]
            said = str(caught.exception)
            self.assertTrue(said.startswith(f"{self.folder}/a.list, line {line}: "), said)
            if message is not None:
                self.assertEqual(said, f"{self.folder}/a.list, line {line}: {message.format(self.folder)}")


class TableNames(InFolder):
    def test_names(self) -> None:
        path = self.write("a.list", "# table:not:this\nprogram x x.elf\nstore table:t:a u8:1\ncall x 5 table:t:1\nexpect table:t:a gone\n")
        found = lists.read_list(path).view.names
        self.assertEqual(sorted(found.values()), ["table:t:1", "table:t:a"])
        self.assertTrue(all(len(key) == 32 for key in found))

    def test_a_wrong_word(self) -> None:
        path = self.write("a.list", "\nstore table:t 00\n")
        with self.assertRaises(UserError) as caught:
            lists.read_list(path)
        self.assertEqual(str(caught.exception), f"{path}, line 2: table:t: a tag and a text follow it, as in table:TAG:text")


