"""Shapes of values and inputs: what is shown of them, against a model that is written apart from the tools; and each message."""

import random
import struct
import unittest
from collections.abc import Callable
from dataclasses import dataclass

from rvstm_tools.errors import UserError
from rvstm_tools.texts import lists, words
from rvstm_tools.texts.differences import Difference
from rvstm_tools.texts.keys import Key
from rvstm_tools.texts.results import Added, Removed, Written
from rvstm_tools.texts.views import View
from unit.helpers import InFolder, called_with

ALICE = b"alice".ljust(20, b"\0")


def row_key(table: str, row: bytes) -> Key:
    """The key of a row of at most 27 bytes."""
    return Key(struct.pack("4s27sB", table.encode(), row, len(row)))


LAMP = row_key("lots", b"lamp")


def view_of(*lines: str) -> View:
    """The view of some lines `shape`, by their words after it."""
    view = View()
    for line in lines:
        view.take_shape(words.words_of(line))
    return view


# ---- a model


@dataclass
class Drawn:
    """A field that was drawn: its word in the list, its bytes, and what is shown of it."""

    word: str
    data: bytes
    text: str


class Model:
    """Draws fields, by the types that the help of `block` lists."""

    def __init__(self, seed: int) -> None:
        self.random = random.Random(seed)
        self.types: list[Callable[[str], Drawn]] = [self.number, self.key, self.account, self.text, self.bytes_]

    def field(self, name: str) -> Drawn:
        return self.random.choice(self.types)(name)

    def named(self, name: str, type_: str, data: bytes, text: str) -> Drawn:
        return Drawn(f"{name}:{type_}", data, f"{name} {text}") if name else Drawn(type_, data, text)

    def number(self, name: str) -> Drawn:
        bits, letter = self.random.choice([(8, "b"), (16, "h"), (32, "i"), (64, "q")])
        if self.random.randrange(2):
            number = self.random.choice([0, 1, 2**bits - 1, self.random.randrange(2**bits)])
            return self.named(name, f"u{bits}", struct.pack("<" + letter.upper(), number), f"{number}")
        number = self.random.choice([0, -1, -(2 ** (bits - 1)), 2 ** (bits - 1) - 1])
        return self.named(name, f"i{bits}", struct.pack("<" + letter, number), f"{number}")

    def key(self, name: str) -> Drawn:
        data, text = self.random.choice([
            (b"dave".ljust(32, b"\0"), "dave"), (b"a b".ljust(32, b"\0"), b"a b".hex() + "00" * 29), (bytes(31) + b"\7", "key:7"),
            (bytes(LAMP), "row:lots:lamp"), (b"\xff" * 32, "ff" * 32), (b"10".ljust(32, b"\0"), '"10"'),
        ])
        return self.named(name, "key", data, text)

    def account(self, name: str) -> Drawn:
        data, text = self.random.choice([(ALICE, "alice"), (bytes(20), "0"), (b"0".ljust(20, b"\0"), '"0"'), (b"\1" * 20, "01" * 20)])
        return self.named(name, "account", data, text)

    def text(self, name: str) -> Drawn:
        text = self.random.choice(["", "a", "two words", "full8888"])
        return self.named(name, "text:9", text.encode().ljust(9, b"\0"), f'"{text}"')

    def bytes_(self, name: str) -> Drawn:
        data = self.random.randbytes(3)
        return self.named(name, "bytes:3", data, data.hex())


class AgainstTheModel(unittest.TestCase):
    def test_values(self) -> None:
        """Random fields are shown as the model says, and the words of the value say its bytes again."""
        model = Model(3)
        for _ in range(600):
            fields = [model.field(model.random.choice(["", f"name{number}"])) for number in range(model.random.randint(1, 5))]
            data = b"".join(field.data for field in fields)
            view = view_of("row:lots " + " ".join(field.word for field in fields))
            self.assertEqual(view.value(LAMP, data), ", ".join(field.text for field in fields))
            self.assertEqual(words.joined(view.words_of_value(LAMP, data), 256, "a value"), data)
            self.assertIn("(not its shape: ", view.value(LAMP, data + b"\0"))

    def test_a_part_that_is_repeated(self) -> None:
        model = Model(4)
        for _ in range(200):
            first, count = model.field("first"), model.random.randint(0, 4)
            numbers = [(model.random.randbytes(20), model.random.randrange(2**16)) for _ in range(count)]
            data = first.data + b"".join(struct.pack("<20sH", account, number) for account, number in numbers)
            view = view_of(f"row:lots {first.word} who:account,u16..")
            parts = [text for account, number in numbers for text in (f"who {account.hex()}", f"{number}")]
            self.assertEqual(view.value(LAMP, data), ", ".join([first.text, *parts]))

    def test_parts_of_rows(self) -> None:
        """The keys of a table whose rows have 28 bytes, by the fields of its rows; the words say the keys again."""
        view = view_of("row:pay[account,u64] u64")
        for name, account in (("key:bob", b"bob"), ("hex:" + "ff" * 20, b"\xff" * 20), ("hex:" + "00" * 20, b"")):
            for number in (0, 7, 2**64 - 1):
                key = Key(struct.pack("<4s20sQ", b"pay", account, number))
                self.assertEqual(view.key(key), f"row:pay:{name},u64:{number}")
                self.assertEqual(words.key_of(view.key(key)), key)
                self.assertEqual(view.value(key, bytes(8)), "0")
        short = view_of("row:log[text:3,i16] u64")
        self.assertEqual(short.key(row_key("log", b"abc\xff\xff")), "row:log:abc,i16:-1")
        self.assertEqual(short.key(row_key("log", b"a\0\0\2\0")), "row:log:hex:610000,i16:2")
        self.assertEqual(short.key(row_key("log", b"abc")), "row:log:abc")


class Values(unittest.TestCase):
    def test_that_do_not_fit(self) -> None:
        for shape, data, wanted in (
            ("u64 u32", b"\5\0", "0500  5  (not its shape: it has 2 bytes in place of 12)"),
            ("u8 bytes", b"", "-  (not its shape: it has 0 bytes in place of at least 1)"),
            ("u8 who:account,u8..", bytes(3), "000000  (not its shape: its last 2 bytes are not parts of 21)"),
            ("memo:text", b"\1", "01  1  (not its shape: memo has bytes that are not printable)"),
            ("text:2", b"\0a", "0061  24832  (not its shape: its text has bytes that are not printable)"),
            ("u8:1 u8", b"\2\3", "0203  770  (not its shape: it has 02 in place of u8:1)"),
        ):
            with self.subTest(shape):
                self.assertEqual(view_of(f"row:lots {shape}").value(LAMP, data), wanted)

    def test_the_longest(self) -> None:
        """The fields before the last may have all bytes of a value; the last one, which has no length, is empty then."""
        self.assertEqual(view_of("row:lots bytes:256 bytes").value(LAMP, b""), "-  (not its shape: it has 0 bytes in place of at least 256)")

    def test_which_shape(self) -> None:
        """That of the key is before that of its table; other keys have none."""
        view = view_of("row:lots u8 u8", "row:lots:lamp sum:u16", "key:total u64")
        self.assertEqual(view.value(LAMP, b"\1\2"), "sum 513")
        self.assertEqual(view.value(row_key("lots", b"vase"), b"\1\2"), "1, 2")
        self.assertEqual(view.value(Key(b"total".ljust(32, b"\0")), bytes(8)), "0")
        self.assertEqual(view.value(row_key("lot", b"vase"), b"\1\2"), "0102  513")
        hashed = view_of("table:t.lots u8 u8")
        hashed.take_names(["table:t.lots:lamp", "table:t:lamp"])
        self.assertEqual([hashed.value(words.key_of(f"table:{tag}:lamp"), b"\1\2") for tag in ("t.lots", "t")], ["1, 2", "0102  513"])

    def test_changes(self) -> None:
        view = view_of("row:lots u8:1 bid:u64")
        self.assertEqual([view.change(LAMP, Added(7)), view.change(LAMP, Removed()), view.change(LAMP, Written(b"\1\4" + bytes(7)))], ["+7", "gone", "bid 4"])

    def test_words(self) -> None:
        view = view_of("row:lots u8:1 bid:i16 who:key by:account name:text:4")
        view.take_names(["row:who:account:bob"])
        data = b"\1\xfe\xff" + row_key("who", b"bob".ljust(20, b"\0")) + ALICE + b"ab\0\0"
        self.assertEqual(view.words_of_value(LAMP, data), ["u8:1", "i16:-2", "row:who:account:bob", "account:alice", '"ab"', "0000"])
        self.assertEqual(view.words_of_value(LAMP, b"\7\0\0\0"), ["u32:7"])
        bob, seven, other = b"bob".ljust(32, b"\0"), bytes(31) + b"\7", bytes(30) + b"\1\7"
        view = view_of("row:lots key key key key", "key:q text:3 bytes", "row:pay[text:3,account] u8")
        data = row_key("who", b"bob") + bob + seven + other
        self.assertEqual(view.words_of_value(LAMP, data), ["row:who:bob", "key:bob", "key:7", other.hex()])
        self.assertEqual(view.value(LAMP, data), f"row:who:bob, bob, key:7, {other.hex()}")
        self.assertEqual(view.words_of_value(words.key_of("key:q"), b'a"b'), ["612262", '""'])
        self.assertEqual(view.words_of_value(words.key_of("key:r"), b"ab"), ['"ab"'])
        self.assertEqual((view.word_of_key(LAMP), view.word_of_key(Key(bob))), ("row:lots:lamp", bob.hex()))
        view.take_names(["table:t:lamp"])
        self.assertTrue(view.value(LAMP, words.key_of("table:t:lamp") + data[32:]).startswith("table:t:lamp, bob"))
        self.assertEqual(view.doubt("row:pay:abc,bob"), "row:pay:abc,bob: a text, and its shape has an account there; the key of the account is row:pay:abc,key:bob")

    def test_short_and_long_ones(self) -> None:
        view, other = view_of("row:lots bytes:51 u8"), row_key("none", b"")
        self.assertEqual((view.value(other, bytes(41)), view.value(LAMP, bytes(52))), ("00" * 41, f"{'00' * 51}, 0"))
        self.assertEqual(view.short_value(other, bytes(41)), f"{'00' * 20}..  (41 bytes)")
        self.assertEqual(view.short_value(LAMP, bytes(52)), f"{'00' * 50}..")
        self.assertEqual(view_of("row:lots u8:1").value(LAMP, b"\1"), "-")


class Differences(unittest.TestCase):
    def difference(self, shape: str, wanted: bytes, came: bytes) -> Difference:
        return view_of(f"row:lots {shape}").difference(LAMP, Written(wanted), Written(came))

    def test_short_ones_are_in_full(self) -> None:
        found = self.difference("balance:u32 frozen:u8 u8", b"\7\0\0\0\0\1", b"\7\0\0\0\1\0")
        self.assertEqual(found, Difference("balance 7, frozen 0, 1", "balance 7, frozen 1, 0", "at frozen"))
        self.assertEqual(self.difference("u8 u8", b"\1\2", b"\1\3"), Difference("1, 2", "1, 3", "at field 2"))

    def test_of_long_ones_the_fields_around_the_place(self) -> None:
        key = b"\xff" * 32
        found = self.difference("old:u8 k:key bid:u16 by:account x:u8..", b"\1" + key + b"\5\0" + ALICE + b"\1\2\3", b"\1" + key + b"\6\0" + ALICE)
        self.assertEqual(found, Difference(f".., k {'ff' * 32}, bid 5, by alice, ..", f".., k {'ff' * 32}, bid 6, by alice", "at bid"))
        parts = self.difference("k:key u16 x:u8..", b"\xff" * 32 + bytes(2) + bytes(20), b"\xff" * 32 + bytes(2) + bytes(15) + b"\1")
        self.assertEqual(parts, Difference(".., x 0, x 0, x 0, ..", ".., x 0, x 1", "at x of part 16"))

    def test_one_that_does_not_fit(self) -> None:
        found = self.difference("u8 u8", b"\1\2", b"\1")
        self.assertEqual(found, Difference("1, 2", "01  1  (not its shape: it has 1 bytes in place of 2)"))
        found = self.difference("u8 u8", b"\1", b"\1\2")
        self.assertEqual(found, Difference("01  1  (not its shape: it has 1 bytes in place of 2)", "1, 2"))

    def test_where_they_part(self) -> None:
        for shape, wanted, came, difference in (
            ("x:u8..", b"\1", b"\1\2", Difference("x 1", "x 1, x 2", "at x of part 2")),
            ("x:u8..", b"\1\2", b"\1", Difference("x 1, x 2", "x 1", "at x of part 2")),
            ("u8 u8 u8 u8", b"\1\2\3\4", b"\0\2\3\4", Difference("1, 2, 3, 4", "0, 2, 3, 4", "at field 1")),
            ("u64", bytes(8), b"\1" + bytes(7), Difference("0", "1")),
            ("bytes:47 u8 u8", bytes(49), b"\1" + bytes(48), Difference(f"{'00' * 47}, 0, 0", f"01{'00' * 46}, 0, 0", "at field 1")),
            ("u8 u8 bytes:60 u8", bytes(63), b"\0\1" + bytes(61), Difference(f"0, 0, {'00' * 47}.., ..", f"0, 1, {'00' * 47}.., ..", "at field 2")),
            ("x:account..", bytes(20) + b"\1" * 60, b"", Difference(f"x 0, x {'01' * 20}, ..", "-", "at x of part 1")),
        ):
            with self.subTest(shape=shape, wanted=wanted):
                self.assertEqual(self.difference(shape, wanted, came), difference)

    def test_other_changes(self) -> None:
        view = view_of("row:lots u8 u8")
        self.assertEqual(view.difference(LAMP, Removed(), Written(b"\1\2")), Difference("gone", "1, 2"))
        self.assertEqual(view.difference(LAMP, Written(b"\1\2"), Added(3)), Difference("1, 2", "+3"))
        self.assertEqual(View().difference(LAMP, Written(bytes(41)), Written(bytes(40) + b"\1")).place, "at byte 40")


class Inputs(unittest.TestCase):
    def test_inputs(self) -> None:
        view = view_of("input open u8:0 row:text:4 from:account u64", "input close u8:1", "input last u8:2 u64", "input other u8 bytes")
        for data, wanted in {
            b"\0lamp" + b"dave".ljust(20, b"\0") + b"\x0a" + bytes(7): 'open(row "lamp", from dave, 10)',
            b"\2\7" + bytes(7): "last(7)", b"\1": "close()", b"\1\2": "other(1, 02)", b"\0": "other(0, -)", b"": "-  (it fits no shape of an input)",
        }.items():
            self.assertEqual(view.input(data), wanted)
        self.assertEqual(View().input(b"\1"), "")


class Messages(InFolder):
    def test_messages(self) -> None:
        field = "a field is NAME:TYPE or TYPE; a type is u8 .. u64, i8 .. i64, key, account, text, text:N, bytes or bytes:N"
        rest = "it has all bytes that are left, so it is the last field, and is not repeated"
        for line, message in {
            "": "shape: a key, row:TABLE, table:TAG or `input NAME` follows it, and then fields",
            "row:lots": "shape: the fields of a value are missing",
            "row:lottery u8": "row:lottery: the name of a table has 1 to 4 letters, a to z or A to Z",
            "row: u8": "row:: the name of a table has 1 to 4 letters, a to z or A to Z",
            "lots u8": 'lots: not bytes in hex, "text", u8:N .. u64:N, i8:N .. i64:N, key:text, key:N, account:name, row:TABLE:name, '
                       "table:TAG:text or hex:BYTES",
            "input": "input: a name of letters, digits and _ follows it",
            "input 1 u8": "input: a name of letters, digits and _ follows it, and not 1",
            "input open": "shape: the fields of an input are missing",
            "key:a u24": f"u24: {field}",
            "key:a sum:u46": f"sum:u46: {field}",
            "key:a sum": f"sum: {field}",
            "key:a text:x": f"text:x: {field}",
            "key:a 00": f"00: {field}",
            "key:a 1st:u8": "1st:u8: the name of a field has letters, digits and _",
            "key:a key:u64": "key:u64: key is a type, and no name of a field",
            "key:a a:u8 a:u16": "a:u16: another field has this name",
            "key:a text u8": f"text: {rest}",
            "key:a text..": f"text: {rest}",
            "key:a bytes u8..": f"bytes: {rest}",
            "key:a u8.. u8": "u8..: a part that is repeated is the last one",
            "key:a a:u8,b:u8": f"a:u8,b:u8: {field}",
            "key:a text:0": "0: the length of text is a number of 1 to 4096",
            "key:a bytes:4097": "4097: the length of bytes is a number of 1 to 4096",
            'key:a ""': '"": a field has at least one byte',
            "key:a u8:256": "u8:256: a number of 8 bits is at most 255",
            "key:a bytes:257": "bytes:257: with it a value has 257 bytes; it has at most 256",
            "row:pay[account,u64,u8] u8": "u8: with it a row has 29 bytes; it has at most 28",
            "row:pay[] u8": f": {field}",
            "row:pay[u8..] u8": "row:pay[u8..]: no part of a row is repeated",
        }.items():
            path = self.write("a.list", f"shape {line}\n")
            with self.subTest(line), self.assertRaises(UserError) as caught:
                lists.read_list(path)
            self.assertEqual(str(caught.exception), f"{path}, line 1: {message}")

    def test_a_second_shape(self) -> None:
        for target in ("row:lots", "row:lots:lamp", "table:lots", "input open"):
            with self.subTest(target), self.assertRaises(UserError) as caught:
                view_of(f"{target} u8", f"{target} u16")
            self.assertEqual(str(caught.exception), f"{target}: another line `shape` has it")


class InTools(InFolder):
    def test_a_result(self) -> None:
        path = self.write("a.list", "shape row:lots bid:u64\nstore row:lots:lamp u64:7\n")
        status, output, _ = called_with(f"store {LAMP.hex()} 0700000000000000\nend\n", "result", "--list", path)
        self.assertEqual((status, output.splitlines()[-1]), (0, "      row:lots:lamp: bid 7"))
