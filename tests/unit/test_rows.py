"""Keys of rows of tables: against a model that is written apart from the tools, and the words that say them."""

import random
import string
import struct
import unittest

from rvstm_tools.errors import UserError
from rvstm_tools.pictures import waits
from rvstm_tools.texts import lists, rows, words
from rvstm_tools.texts.keys import Key
from rvstm_tools.texts.rows import Row
from rvstm_tools.texts.views import View
from unit.helpers import InFolder, called, called_with

FIRST_TWENTY = "6d616c6c6f727900000000000000000000000000"  # of key:mallory


def model_key(table: str, row: bytes) -> bytes:
    """The key of a row, by the layout: four bytes, 28 bytes; the last one is the length of a row of at most 27."""
    if len(row) == 28:
        return struct.pack("4s28s", table.encode(), row)
    return struct.pack("4s27sB", table.encode(), row, len(row))


class Generator:
    """Tables and rows, of any bytes or of those that words like to show in another way."""

    def __init__(self, seed: int) -> None:
        self.random = random.Random(seed)

    def table(self) -> str:
        return "".join(self.random.choices(string.ascii_letters, k=self.random.randint(1, 4)))

    def row(self, length: int) -> bytes:
        sets = (bytes(range(256)), b"\0\1", b"ab09", b',:"#{} -_', bytes(range(0x21, 0x7F)))
        data = bytes(self.random.choices(self.random.choice(sets), k=length))
        zeros = self.random.randint(0, length)
        return data[:zeros] + bytes(length - zeros) if self.random.randrange(2) else data


class AgainstTheModel(unittest.TestCase):
    def test_keys_and_their_words(self) -> None:
        """Each key is that of the model; what is shown of it, as a row and as hex, says the same key."""
        made = Generator(5)
        for _ in range(1000):
            table, row = made.table(), made.row(made.random.randint(1, 28))
            key = Row(table, row).key
            self.assertEqual(key, model_key(table, row))
            self.assertEqual(words.key_of(f"row:{table}:hex:{row.hex()}"), key)
            self.assertEqual(words.key_of(View().key(key)), key)
            long = frozenset([table] if len(row) == 28 else [])
            self.assertEqual(rows.row_of(key, long), Row(table, row))
            self.assertEqual(words.key_of(words.word_of_row(Row(table, row))), key)

    def test_no_two_rows_have_one_key(self) -> None:
        """Rows of all pairs of lengths, in tables whose names begin alike. A table has rows of 28 bytes, or others."""
        made = Generator(6)
        for one in range(28):
            for other in range(one + 1):
                pairs = {(table, row) for table in ("a", "ab", "abcd") for row in (made.row(one), made.row(other))}
                pairs |= {(table, made.row(28)) for table in ("L", "abL")}
                self.assertEqual(len({Row(table, row).key for table, row in pairs}), len(pairs))

    def test_what_is_shown_of_any_key_says_it(self) -> None:
        made = Generator(7)
        for _ in range(1000):
            key = Key(made.row(32))
            self.assertEqual(words.key_of(View().key(key)), key)
            self.assertEqual(words.key_of(View().word_of_key(key)), key)


class Words(unittest.TestCase):
    def test_rows(self) -> None:
        alice = b"alice" + bytes(15)
        for word, row in {
            "row:acct:lamp": Row("acct", b"lamp"),
            "row:A:\u00e9": Row("A", b"\xc3\xa9"),
            "row:a:u64:7": Row("a", b"\7" + bytes(7)),
            "row:a:i32:-2": Row("a", b"\xfe\xff\xff\xff"),
            "row:a:key:alice": Row("a", alice),
            "row:a:account:alice": Row("a", alice),
            "row:a:key:alice,u64:258": Row("a", alice + b"\2\1" + bytes(6)),
            "row:a:u8:1,b,hex:ff": Row("a", b"\1b\xff"),
            "row:a:face": Row("a", b"face"),
            "row:a:" + "x" * 28: Row("a", b"x" * 28),
        }.items():
            with self.subTest(word):
                self.assertEqual(words.row_of(word), row)
                self.assertEqual(words.bytes_of(word), model_key(row.table, row.data))

    def test_other_words(self) -> None:
        for word, data in {
            "account:mallory": FIRST_TWENTY, "hex:0aFF": "0aff", "i8:-128": "80", "i16:-2": "feff", "i64:1": "01" + "00" * 7,
            "i32:2147483647": "ffffff7f", "account:" + "a" * 20: "61" * 20,
        }.items():
            with self.subTest(word):
                self.assertEqual(words.bytes_of(word).hex(), data)

    def test_what_is_shown(self) -> None:
        zeros = bytes(15)
        for row, word in {
            b"lamp": "lamp", b"u64": "u64", b"1234": "u32:875770417", b"12345": "hex:3132333435", b"a,b": "hex:612c62",
            b"\1": "u8:1", bytes(8): "u64:0", bytes(3): "hex:000000", b"alice" + zeros: "key:alice",
            b"alice" + zeros + b"\7\0\0\0": "key:alice,u32:7", b"alice" + zeros + b"\7\0\0\0\0": "hex:" + (b"alice" + zeros).hex() + "0700000000",
            b"12345" + zeros: "hex:" + (b"12345" + zeros).hex(), bytes(20): "hex:" + "00" * 20,
            b"alice" + zeros + bytes(8): "key:alice,u64:0",
        }.items():
            self.assertEqual(words.word_of_row(Row("t", row)), f"row:t:{word}")

    def test_keys_that_are_no_rows(self) -> None:
        for key in (
            b"bob", b"lamp" + bytes(27) + b"\x1c", b"lamp" + bytes(26) + b"x\1", b"a\0b" + bytes(28) + b"\1", bytes(31) + b"\1",
            b"la1p" + bytes(27) + b"\1",
        ):
            self.assertIsNone(rows.row_of(Key(key.ljust(32, b"\0"))))

    def test_messages(self) -> None:
        form = "a table and a row follow it, as in row:TABLE:name or row:TABLE:key:alice,u64:7"
        name = "the name of a table has 1 to 4 letters, a to z or A to Z"
        for word, message in {
            "row:": f"row:: {form}",
            "row:acct": f"row:acct: {form}",
            "row:acct:": f"row:acct:: {form}",
            "row::lamp": f"row::lamp: {name}",
            "row:lamps:a": f"row:lamps:a: {name}",
            "row:t1:a": f"row:t1:a: {name}",
            "row:\u00e9:a": f"row:\u00e9:a: {name}",
            "row:a:b,,c": "row:a:b,,c: a part of the row is empty",
            "row:a:b,": "row:a:b,: a part of the row is empty",
            "row:a:7": "row:a:7: a number in a row has a size, as in u64:7; the text of these digits is hex:37",
            (word := "row:a:key:alice,u64:7,u8:1,u8:2"): f"{word}: with u8:1 the row has 29 bytes; it has at most 28",
            "row:a:table:b:c": "row:a:table:b:c: with table:b:c the row has 32 bytes; it has at most 28",
            f"row:a:{'x' * 29}": f"row:a:{'x' * 29}: with {'x' * 29} the row has 29 bytes; it has at most 28",
            "row:a:u8:256": "u8:256: a number of 8 bits is at most 255",
            "row:a:key:7": "key:7: an account has a name, and this is a number",
            "row:a:key:" + "b" * 21: "key:" + "b" * 21 + ": an account has at most 20 bytes, and this is 21",
            "account:": "account:: no name follows it",
            "account:7": "account:7: an account has a name, and this is a number",
            f"account:{'é' * 11}": f"account:{'é' * 11}: an account has at most 20 bytes, and this is 22",
            "i8:128": "i8:128: a number of 8 bits with a sign is of -128 to 127",
            "i8:-129": "i8:-129: a number of 8 bits with a sign is of -128 to 127",
            f"i64:{-2**63 - 1}": f"i64:{-2**63 - 1}: a number of 64 bits with a sign is of {-2**63} to {2**63 - 1}",
        }.items():
            with self.subTest(word[:20]), self.assertRaises(UserError) as caught:
                words.bytes_of(word)
            self.assertEqual(str(caught.exception), message)


class InTools(InFolder):
    def test_a_list_says_that_rows_have_28_bytes(self) -> None:
        """One word of 28 bytes says it of all keys of the table; without it they are no rows."""
        path = self.write("a.list", "store row:pay:key:alice,u64:7 u8:1\n")
        key = model_key("pay", b"bob" + bytes(17) + b"\2\1" + bytes(6))
        for words_of_list, wanted in ((("--list", path), "row:pay:key:bob,u64:258"), ((), key.hex()[:52])):
            output = called_with(f"store {key.hex()} 01\nend\n", "result", *words_of_list)[1]
            self.assertEqual(output.splitlines()[-1], f"      {wanted}: 01  1")

    def test_rows_of_a_table_that_can_not_be(self) -> None:
        """A table has rows of 28 bytes, or of at most 27."""
        long, short = "row:pay:key:bob,u64:1", "row:pay:key:bob"
        for first, second, message in (
            (f"store {long} u8:1", short, "it has 20 bytes, and the other rows of pay have 28"),
            (f"store {short} u8:1", long, "it has 28 bytes, and the other rows of pay have at most 27"),
            ("shape row:pay[account,u64] u8", short, "it has 20 bytes, and the other rows of pay have 28"),
        ):
            path = self.write("a.list", f"{first}\nstore {second} u8:1\n")
            with self.subTest(first), self.assertRaises(UserError) as caught:
                lists.read_list(path)
            self.assertEqual(str(caught.exception), f"{path}, line 2: {second}: {message}")

    def test_a_text_in_place_of_an_account_is_a_warning(self) -> None:
        """The key of a text of 20 bytes is that of the account; a key with a shape of its own, and a number, are no mistakes."""
        shapes = "shape row:acct[account] balance:u64\nshape row:acct:pot fees:u64\nshape row:pay[u32,account] u8\n"
        warned = {"row:acct:alice": "row:acct:key:alice", "row:pay:u32:7,bob": "row:pay:u32:7,key:bob"}
        right = ("row:acct:key:bob", "row:acct:pot", "row:acct:" + "b" * 20, "row:pay:u32:7,key:bob", "row:acct:u8:1", "row:lots:lamp", "key:bob")
        text = "".join(f"store {word} u8:1\n" for word in (*warned, *right)) + shapes
        said = {
            word: f"{word}: a text, and its shape has an account there; the key of the account is {meant}" for word, meant in warned.items()
        }
        path = self.write("a.list", text)
        wanted = (0, "".join(f"warning: {path}: {line}\n" for line in said.values()))
        self.assertEqual(called_with("end\n", "result", "--list", path)[::2], wanted)
        self.assertEqual(called("block", path)[::2], wanted)
        description = self.write("a.explore", f"program x x.elf\n{text}call x 9\n")
        self.assertIn(f"warning: {description}: {said['row:acct:alice']}\n", called("explore", description, "--program", "/bin/false")[2])

    def test_a_picture_of_conflicts_names_rows(self) -> None:
        self.assertEqual(waits.name_of(Key(model_key("acct", b"alice" + bytes(15))), View()), "row:acct:key:alice")

    def test_a_result_shows_rows(self) -> None:
        """By the words of a list, if it has some; otherwise by their own."""
        rows_of_result = sorted([model_key("acct", b"alice" + bytes(15)), model_key("lots", b"lamp"), model_key("pay", b"x" * 28)])
        text = "".join(f"store {key.hex()} 01\n" for key in rows_of_result) + "end\n"
        shown_rows = ["      row:acct:key:alice: 01  1", "      row:lots:lamp: 01  1"]
        _, output, _ = called_with(text, "result")
        self.assertEqual(output.splitlines()[2:4], shown_rows)
        path = self.write("a.list", "store row:acct:account:alice u8:1\n")
        _, output, _ = called_with(text, "result", "--list", path)
        self.assertEqual(output.splitlines()[2:4], ["      row:acct:account:alice: 01  1", shown_rows[1]])
