"""Words of lists, and the bytes that they say. The digests are of `printf ... | sha256sum`."""

import unittest

from rvstm_tools.errors import UserError
from rvstm_tools.texts import keys, words


class WordsOfALine(unittest.TestCase):
    def test_words(self) -> None:
        cases = {
            "": [],
            "   \n": [],
            "# a comment": [],
            "call token 5000 u8:0\n": ["call", "token", "5000", "u8:0"],
            '  store\tkey:a "two words"  00 # "rest\n': ["store", "key:a", '"two words"', "00"],
            'expect returned ""': ["expect", "returned", '""'],
            '"a # b" #': ['"a # b"'],
            "a#b": ["a#b"],
        }
        for line, wanted in cases.items():
            with self.subTest(line):
                self.assertEqual(words.words_of(line), wanted)

    def test_unpaired_quotes(self) -> None:
        for line, message in {'store "a': '"a', 'store a"b 00': 'a"b', '"a"b': '"a"b', 'u8:1"a"': 'u8:1"a"'}.items():
            with self.subTest(line), self.assertRaises(UserError) as caught:
                words.words_of(line)
            self.assertEqual(str(caught.exception), f"{message}: a text has a quote at each end, and a blank before and after it")


class BytesOfAWord(unittest.TestCase):
    def test_each_form(self) -> None:
        cases = {
            "0a0B0c": b"\n\x0b\x0c",
            '""': b"",
            '"two words"': b"two words",
            '"\u00e9"': b"\xc3\xa9",
            "u8:255": b"\xff",
            "u16:258": b"\x02\x01",
            "u32:7": b"\7\0\0\0",
            "u64:18446744073709551615": b"\xff" * 8,
            "u8:0007": b"\7",
            "key:alice": b"alice" + bytes(27),
            "key:0": bytes(32),
            "key:255": bytes(31) + b"\xff",
            "key:a:b": b"a:b" + bytes(29),
        }
        for word, wanted in cases.items():
            with self.subTest(word):
                self.assertEqual(words.bytes_of(word), wanted)

    def test_table_keys(self) -> None:
        # { printf auction; printf 'lamp\0\0..'; } | sha256sum, of 4 letters and 28 zeros; the second of 31 zeros and a byte 1
        for word, wanted in {
            "table:auction:lamp": "55935cf9b4dba2b5b5f348784841649241186ccac15b833d41c17400ffea7b5e",
            "table:a:b:1": "2aa857755d08dffd9286ccb37736e4aa99e9790f884dbdb46e7f39b62a4a54cd",
        }.items():
            with self.subTest(word):
                self.assertEqual(words.bytes_of(word).hex(), wanted)

    def test_messages(self) -> None:
        forms = (
            'not bytes in hex, "text", u8:N .. u64:N, i8:N .. i64:N, key:text, key:N, account:name, row:TABLE:name, '
            "table:TAG:text or hex:BYTES"
        )
        cases = {
            "0": forms,
            "0g": forms,
            "u7:1": forms,
            "u8:": forms,
            "u8:-1": forms,
            "i8:+1": forms,
            "hex:": forms,
            "hex:0": forms,
            "u8:\u0663": forms,  # a digit, but none of ASCII
            "u8:256": "a number of 8 bits is at most 255",
            "u16:65536": "a number of 16 bits is at most 65535",
            "u64:18446744073709551616": "a number of 64 bits is at most 18446744073709551615",
            "u64:" + "9" * 5000: "a number of 64 bits is at most 18446744073709551615",
            "key:": "no text follows it",
            "key:256": "the number of a key is at most 255; another key is written in hex",
            "key:" + "1" * 5000: "the number of a key is at most 255; another key is written in hex",
            "key:" + "a" * 33: "a key has at most 32 bytes, and this is 33",
            "key:" + "\u00e9" * 17: "a key has at most 32 bytes, and this is 34",
            "table:": "a tag and a text follow it, as in table:TAG:text",
            "table:a": "a tag and a text follow it, as in table:TAG:text",
            "table::b": "a tag and a text follow it, as in table:TAG:text",
            "table:a:": "a tag and a text follow it, as in table:TAG:text",
        }
        for word, message in cases.items():
            with self.subTest(word[:20]), self.assertRaises(UserError) as caught:
                words.bytes_of(word)
            self.assertEqual(str(caught.exception), f"{word}: {message}")

    def test_a_number_of_a_table_key_is_told_by_its_key(self) -> None:
        with self.assertRaisesRegex(UserError, "^key:256: the number of a key is at most 255"):
            words.bytes_of("table:a:256")


class SeveralWords(unittest.TestCase):
    def test_joined(self) -> None:
        self.assertEqual(words.joined(["u8:1", '"ab"', "00"], 4, "an input"), b"\1ab\0")
        self.assertEqual(words.joined([], 0, "an input"), b"")

    def test_too_long(self) -> None:
        with self.assertRaises(UserError) as caught:
            words.joined(["u8:1", '"ab"'], 2, "an input")
        self.assertEqual(str(caught.exception), "u8:1: an input has at most 2 bytes, and this is 3")

    def test_key_of(self) -> None:
        self.assertEqual(words.key_of("ff"), keys.Key(b"\xff" + bytes(31)))
        with self.assertRaisesRegex(UserError, "a key has at most 32 bytes, and this is 33"):
            words.key_of("00" * 33)

    def test_name_of(self) -> None:
        self.assertEqual(words.name_of("token"), "token")
        with self.assertRaisesRegex(UserError, '^"token": a name has no quotes$'):
            words.name_of('"token"')


