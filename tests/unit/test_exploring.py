"""Exploring: each line of a description, expressions that raise, what is drawn, and sequences that are shortened."""

import abc
import contextlib
import hashlib
import io
import itertools
import json
import random
import typing
import unittest
from dataclasses import replace
from pathlib import Path
from types import SimpleNamespace
from unittest import mock

from rvstm_tools import errors
from rvstm_tools.errors import UserError
from rvstm_tools.exploring import expressions, foundlists, runs, saved, shortening, storages
from rvstm_tools.exploring.comparing import Data, MistakeError, Name
from rvstm_tools.exploring.descriptions import WRONG_TIME, Description
from rvstm_tools.exploring.expressions import Raised, Rule
from rvstm_tools.exploring.places import AnyBytes, DrawnBytes, NumberSpans, Place, Span, Words
from rvstm_tools.exploring.progress import ProgressLine
from rvstm_tools.exploring.reached import Reached, Sample, Sampler, Way
from rvstm_tools.exploring.runs import Broken, Counted, DrawnCall, Finding, SequenceRun
from rvstm_tools.exploring.saved import SavedCall
from rvstm_tools.exploring.searches import Limits, Search
from rvstm_tools.exploring.shortening import Shorter
from rvstm_tools.exploring.storages import StorageByReceipts
from rvstm_tools.sessions.answers import Answer, Done
from rvstm_tools.sessions.processes import Settings
from rvstm_tools.sessions.requests import Request, Word
from rvstm_tools.texts import words
from rvstm_tools.texts.keys import Key
from rvstm_tools.texts.lists import STORAGE
from rvstm_tools.texts.results import Added, End, Receipt, Removed, Written
from rvstm_tools.texts.views import View
from unit.helpers import InFolder, called
from unit.test_elf import elf_file

A = Key(b"a".ljust(32, b"\0"))
BEGIN = "program echo echo.elf\ndraw some 1..9\ndraw who alice bob\ndraw data bytes:0..2\n"
CALL = f"{BEGIN}call echo 100 u8:{{some}}\n"


DRAWN = [60, 24, 24, 8, 7, 0, 17, 53, 56, 0, 7, 26]
"""What scripts/explore, which this package replaces, drew of `draw N 0..60` with the seed 1:0, if 7 was seen."""


def setUpModule() -> None:
    """SIGTERM ends these tests at once. `explore` would take it for Ctrl-C, and end with a status for which its test would fail."""
    unittest.enterModuleContext(mock.patch.object(errors, "ended_by_signal", contextlib.nullcontext))


class OfDescriptions(InFolder):
    def description(self, text: str) -> Description:
        return Description(self.write("a.explore", text))

    def test_all_lines(self) -> None:
        text = (
            f"rules 2\n{BEGIN}store key:alice u64:7\nlet sum = u64('key:alice')\n"
            "call echo 100 key:{who} key:{other=who} {data}  # a comment\nreturned sum == before.sum + 1\nreverted output == b'no'\n"
            "holds gas < 100\nmay-end out-of-gas illegal\nalways sum >= 0\nstorage\nholds len(keys()) == 1\n"
        )
        found = self.description(text)
        (kind,) = found.kinds
        self.assertEqual((kind.program, kind.gas, kind.words), ("echo", 100, ["key:{who}", "key:{other}", "{data}"]))
        self.assertEqual(kind.text, "call echo 100 key:{who} key:{other=who} {data} ".rstrip())
        self.assertEqual(kind.places, {"who": Words(("alice", "bob")), "other": Words(("alice", "bob")), "data": AnyBytes(Span(0, 2))})
        self.assertEqual([rule.when for rule in kind.rules], ["returned", "reverted", "holds"])
        self.assertEqual(kind.ends, {End.RETURNED, End.REVERTED, End.OUT_OF_GAS, End.ILLEGAL})
        self.assertEqual((len(found.always), len(found.at_end), list(found.lets)), (1, 1, ["sum"]))
        self.assertEqual(found.programs, {"echo": str(self.folder / "echo.elf")})
        self.assertEqual(found.stores, ["store key:alice u64:7"])
        self.assertEqual(kind.data({"who": "alice", "other": "b", "data": DrawnBytes(b"\xff")}),
                         b"alice".ljust(32, b"\0") + b"b".ljust(32, b"\0") + b"\xff")

    def test_messages(self) -> None:
        kinds = "not rules, include, program, shape, store, time, draw, let, model, always, call, method, returned, reverted, holds, may-end or storage"
        words_of_call = "call: a program's name, the gas and the input follow it, and no line `storage` is above it"
        for text, line, message in (
            ("nonsense\n", 1, f"nonsense: {kinds}"),
            ("draw\n", 1, ": a name has letters, digits and _, and is not a word of Python"),
            ("draw 1x 5\n", 1, "1x: a name has letters, digits and _, and is not a word of Python"),
            ("draw for 5\n", 1, "for: a name has letters, digits and _, and is not a word of Python"),
            ("draw gas 5\n", 1, "gas: this name is taken"),
            ("draw a\n", 1, "draw: words, numbers, ranges of numbers, bytes:FIRST..LAST, keys:N or accounts:N follow the name"),
            ("draw a keys:0\n", 1, "0: how many keys there are is a number of 1 to 64"),
            ("draw a accounts:65\n", 1, "65: how many accounts there are is a number of 1 to 64"),
            ("draw a 5\ndraw a 6\n", 2, "a: another line `draw` has this name"),
            ("draw a 9..1\n", 1, "9..1: the first number is above the last one"),
            ("draw a 1 x\n", 1, "draw: only words follow the name, or only numbers, or one bytes:FIRST..LAST"),
            ("draw a bytes:1 bytes:2\n", 1, "draw: only words follow the name, or only numbers, or one bytes:FIRST..LAST"),
            ("draw a 18446744073709551616\n", 1, "18446744073709551616: a number is at most 18446744073709551615"),
            (f"draw a {'9' * 5000}\n", 1, f"{'9' * 5000}: a number is at most 18446744073709551615"),
            ("draw a bytes:0..4097\n", 1, "bytes:0..4097: a number is at most 4096"),
            ("time key:a u64:1\n", 1, WRONG_TIME),
            ("time key:a 01 5\n", 1, WRONG_TIME),
            ("time key:a u64:1 x\n", 1, WRONG_TIME),
            ("time key:a u64:1 5\ntime key:b u64:1 5\n", 2, WRONG_TIME),
            (f"{CALL}time key:a u64:1 5\n", 6, WRONG_TIME),
            ("store key:a 01\ntime key:a u64:1 5\n", 2, "key:a: another store line of the block has this key"),
            ("time key:a u8:256 5\n", 1, "u8:256: a number of 8 bits is at most 255"),
            ("let\n", 1, "let: NAME = EXPRESSION follows it"),
            ("let a\n", 1, "let: NAME = EXPRESSION follows it"),
            ("let a = \n", 1, "not an expression of Python: invalid syntax"),
            ("let value = 1\n", 1, "value: this name is taken"),
            ("let a = 1\nlet a = 2\n", 2, "a: this name is taken"),
            ("let a = before.u64('key:1')\n", 1, "before: there is no such name here"),
            ("let a = end\n", 1, "end: there is no such name here"),
            ("let a = every.who\n", 1, "every.who: there is no such name here"),
            ("returned True\n", 1, "returned: no call is above it; `always` holds after each call"),
            ("call echo 5\n", 1, "echo: no program line above has this name"),
            (f"{BEGIN}call echo\n", 5, words_of_call),
            (f"{BEGIN}call echo 0 00\n", 5, "0: gas is a number of 1 to 10000000"),
            (f"{BEGIN}call echo 9 {{what}}\n", 5, "what: no line `draw` above has this name"),
            (f"{BEGIN}call echo 9 {{some}} {{some}}\n", 5, "some: this name is taken; {OTHER=some} gives another one"),
            (f"{BEGIN}call echo 9 {{\n", 5, "{: a place is {NAME} or {OTHER=NAME}"),
            (f"{BEGIN}call echo 9 u8:{{1}}\n", 5, "u8:{1}: a place is {NAME} or {OTHER=NAME}"),
            (f"{BEGIN}draw much 0..256\ncall echo 9 u8:{{much}}\n", 6, "u8:256: a number of 8 bits is at most 255"),
            (f"{CALL}holds some == other\n", 6, "other: there is no such name here"),
            (f"{CALL}may-end\n", 6, None),
            (f"{CALL}may-end returned\n", 6, None),
            (f"{CALL}let some = 1\n", 6, "some: this name is taken"),
            (f"{BEGIN}let a = 1\ncall echo 9 {{a=some}}\n", 6, "a: this name is taken; {OTHER=some} gives another one"),
            ("always model.x\n", 1, "model: there is no such name here"),
            (f"{CALL}model bank.py Bank\n", 6, "model: a file of Python and the name of a class follow it; it comes once, before all calls"),
            (f"{CALL}method put more\n", 6, "method: the name of a method follows it, once for a call; a line `model` is above it"),
            (f"{CALL}storage x\n", 6, STORAGE),
            (f"{CALL}storage\nstorage\n", 7, STORAGE),
            (f"{CALL}storage\nreturned True\n", 7, "returned: only lines `holds` may follow `storage`"),
            (f"{CALL}storage\nmay-end illegal\n", 7, "may-end: no call is above it; `always` holds after each call"),
            (f"{CALL}storage\ncall echo 9 00\n", 7, words_of_call),
            (f"{CALL}reverted 'the deal is closed'\n", 6, "an expression has to be True or False, and this is 'the deal is closed'"),
            (f"{CALL}holds (\n", 6, "not an expression of Python: '(' was never closed"),
            (f"{CALL}holds '\0'\n", 6, None),
            (f"{CALL}holds {'(' * 500}{')' * 500}\n", 6, None),
        ):
            path = self.write("a.explore", text)
            with self.subTest(text[-40:]), self.assertRaises(UserError) as caught:
                Description(path)
            self.assertTrue(str(caught.exception).startswith(f"{path}, line {line}: "), str(caught.exception))
            if message is not None:
                self.assertEqual(str(caught.exception), f"{path}, line {line}: {message}")

    def test_a_file_that_is_included(self) -> None:
        """A finding has its lines in the place of the line, so that --replace can name another program."""
        (self.folder / "other").mkdir()
        self.write("other/all", "rules 3\nprogram echo echo.elf\nshape key:a number:u8\nstore key:a u8:7\n")
        found = self.description(f"include other/all\n{CALL.partition(chr(10))[2]}")
        self.assertEqual((found.programs, found.stores), ({"echo": f"{self.folder}/other/echo.elf"}, ["store key:a u8:7"]))
        self.assertEqual((found.shapes, found.blocks.block.rules), (["shape key:a number:u8"], 3))
        self.assertEqual(found.files, [found.path, f"{self.folder}/other/all"])

    def test_time(self) -> None:
        """It is a store line at first. The time before calls that are left out passes before the next one; it never wraps."""
        found = self.description(CALL.replace("draw some", "time key:a u8:9 0..3 50\ndraw some"))
        assert found.time
        self.assertEqual((found.stores, found.blocks.block.storage), (["store key:a u8:9"], {A: b"\t"}))
        self.assertEqual((found.time.after(9, 50), found.time.after(250, 6), found.time.less(51)[:4]), (59, 255, [0, 3, 50, 50]))
        self.assertEqual((found.time.less(3), found.time.store_words(7)), ([0, 0, 2], ["store", "key:a", "u8:7"]))
        calls = [DrawnCall(found.kinds[0], {"some": number}, step) for number, step in enumerate((None, 3, None, 50, 2), 1)]
        self.assertEqual([len(block) for block in runs.blocks_of(calls)], [1, 2, 1, 1])
        self.assertEqual([(call.values["some"], call.step) for call in runs.left(calls, [0, 2, 4])], [(1, None), (3, 3), (5, 52)])
        self.assertEqual(saved.restored(found, saved.saved(calls)), calls)

    def test_a_dump_and_one_word(self) -> None:
        self.write("old", f"store {A.hex()} 07\nend\n")
        found = self.description(f"storage old\nprogram echo echo.elf\ndraw who alice\nstore key:b 01\ncall echo 9 key:{{who}}\nstorage\n")
        self.assertEqual((found.dump, found.blocks.block.storage), (f"{self.folder}/old", {A: b"\7", words.key_of("key:b"): b"\1"}))
        self.assertEqual((found.kinds[0].places["who"].samples(), found.is_over), (["alice"], True))

    def test_no_call(self) -> None:
        path = self.write("a.explore", BEGIN)
        with self.assertRaises(UserError) as caught:
            Description(path)
        self.assertEqual(str(caught.exception), f"{path}: there is no line `call`")

    def test_not_utf_8(self) -> None:
        path = self.folder / "a.explore"
        path.write_bytes(b"always '\xff'\n")
        with self.assertRaises(UserError) as caught:
            Description(str(path))
        self.assertEqual(str(caught.exception), f"{path}, line 1: not UTF-8")

    def test_other_programs(self) -> None:
        found = self.description(CALL)
        found.replace(["echo=/other.elf"])
        self.assertEqual(found.programs, {"echo": "/other.elf"})
        for word in ("echo", "echo=", "what=/x", "=x"):
            with self.subTest(word), self.assertRaises(UserError):
                found.replace([word])


class OfExpressions(unittest.TestCase):
    def rule(self, text: str) -> Rule:
        return Rule("holds", 7, text, expressions.code_of(text, "path", {"": {"gas", "output", "before", "every"}, "before": {"gas"}, "every": {"who"}}))

    def test_names(self) -> None:
        for text in ("gas", "[x for x in output]", "(lambda y: y)(gas)", "len(output)", "gas + 1", "before.gas if every.who else 1"):
            self.rule(text)
        for text, name in {"gsa": "gsa", "[x for y in output]": "x"}.items():
            with self.subTest(text), self.assertRaises(UserError) as caught:
                self.rule(text)
            self.assertEqual(str(caught.exception), f"{name}: there is no such name here")

    def test_values_and_what_they_raise(self) -> None:
        self.assertEqual(expressions.evaluated(self.rule("gas > 5"), {"gas": 7}), True)
        for text, raised in {
            "1 / 0": "ZeroDivisionError: division by zero", "output[5]": "IndexError: index out of range", "[][0]": "IndexError: list index out of range",
            "int('x')": "ValueError: invalid literal for int() with base 10: 'x'",
        }.items():
            self.assertEqual(expressions.evaluated(self.rule(text), {"output": b""}), Raised(raised))

    def test_an_exit_is_no_mistake_of_an_expression(self) -> None:
        with self.assertRaises(SystemExit):
            expressions.evaluated(self.rule("exit(3)"), {})

    def test_how_a_rule_is_said(self) -> None:
        self.assertEqual(self.rule("gas > 5").said(), "line 7: holds gas > 5")


class OfPlaces(unittest.TestCase):
    def test_what_is_drawn_is_what_may_be(self) -> None:
        draw = random.Random(1)
        numbers = NumberSpans((Span(3, 5), Span(10, 10)))
        for _ in range(1000):
            self.assertIn(numbers.drawn(draw, [4, 100]), (3, 4, 5, 10))
            data = AnyBytes(Span(1, 3)).drawn(draw, [])
            self.assertTrue(isinstance(data, DrawnBytes) and 1 <= len(data) <= 3)
            self.assertIn(Words(("a", "b")).drawn(draw, []), ("a", "b"))

    def test_the_same_seed_draws_the_same(self) -> None:
        """As Python's `random` draws since 3.2, whatever the machine."""
        draw = random.Random("1:0")
        drawn = [NumberSpans((Span(0, 60),)).drawn(draw, [7]) for _ in range(12)]
        self.assertEqual(drawn, DRAWN)

    def test_numbers_that_were_seen(self) -> None:
        draw, numbers = random.Random(1), NumberSpans((Span(0, 10**9),))
        drawn = {numbers.drawn(draw, [500]) for _ in range(500)}
        self.assertEqual({number for number in drawn if isinstance(number, int) and 0 < number < 1000}, {499, 500, 501})

    def test_samples_and_what_is_simpler(self) -> None:
        self.assertEqual((Words(("a", "b", "c")).simpler("c"), Words(("a", "b", "c")).samples()), (["a", "b"], ["a", "b", "c"]))
        self.assertEqual([AnyBytes(Span(1, 4)).has(length) for length in range(6)], [False, True, True, True, True, False])
        self.assertEqual(Words(("a", "b", "c")).simpler("a"), [])
        numbers = NumberSpans((Span(2, 4), Span(90, 100)))
        self.assertEqual(numbers.samples(), [2, 4, 90, 100])
        self.assertEqual(numbers.simpler(98), [2, 92, 95, 97])  # 98 less 96, 6, 3 and 1; less 48, 24 and 12 are in no range
        self.assertEqual(numbers.simpler(2), [])
        data = AnyBytes(Span(1, 4))
        self.assertEqual(data.samples(), [b"\0", b"\0\0\0\0"])
        self.assertEqual(data.simpler(DrawnBytes(b"\7\0\5")), [b"\7", b"\7\0", b"\0\0\0", b"\0\0\5", b"\7\0\0"])
        self.assertEqual(f"{DrawnBytes(bytes([255, 1]))}", "ff01")


class OfRandomWords(InFolder):
    def test_keys_and_accounts(self) -> None:
        """They are the same each time, differ by their place, and are random in all bytes: each byte of 64 keys is many."""
        path = self.write("a.explore", f"{BEGIN}draw one keys:64\ndraw two keys:64\ndraw three accounts:2\ncall echo 9 {{one}} row:t:hex:{{three}}\n")
        found, again = Description(path), Description(path)
        one, two, three = (found.word_places()[name].words for name in ("one", "two", "three"))
        self.assertEqual(found.word_places(), again.word_places())
        self.assertEqual((len({*one, *two}), {len(word) for word in one}, [len(word) for word in three]), (128, {64}, [40, 40]))
        for byte in range(32):
            self.assertGreater(len({word[2 * byte : 2 * byte + 2] for word in one}), 32)


class OfStorage(unittest.TestCase):
    def test_changes(self) -> None:
        storage = StorageByReceipts(View())
        b, c = Key(b"b".ljust(32, b"\0")), Key(b"c".ljust(32, b"\0"))
        storage.begin({A: (5).to_bytes(8, "little"), b: b"x"})
        storage.take({A: Added(2**64 - 1), b: Removed(), c: Written(b"new")})
        self.assertEqual(storage.data, {A: (4).to_bytes(8, "little"), c: b"new"})
        self.assertEqual((storage.value("key:b"), storage.value_before("key:b")), (None, b"x"))
        self.assertEqual((storage.value("key:c"), storage.value_before("key:c")), (b"new", None))
        storage.take({b: Added(3)})
        self.assertEqual(storage.value(bytes(b)), (3).to_bytes(8, "little"))
        self.assertEqual(storage.value_before("key:c"), b"new")
        storage.begin({A: b"\5"})
        storage.take({A: Added(3)})
        self.assertEqual((storage.value("key:a"), storages.bytes_of("")), ((3).to_bytes(8, "little"), b""), "another length counts from 0")

    def test_numbers(self) -> None:
        storage = StorageByReceipts(View())
        storage.begin({A: b"\2\1"})
        self.assertEqual(storages.number_at(storage.value, "u16", "key:a"), 258)
        self.assertEqual(storages.number_at(storage.value, "u16", "key:b"), 0)
        storage.begin({A: b"\2\xff"})
        self.assertEqual(storages.number_at(storage.value, "i16", "key:a"), -254)
        with self.assertRaises(ValueError) as caught:
            storages.number_at(storage.value, "u64", "key:a")
        self.assertEqual(str(caught.exception), "the value at key:a has 2 bytes and not 8")
        view = storage.view()
        with self.assertRaisesRegex(ValueError, f"^the value at {A.hex()} has 2 bytes and not 8$"):
            view.i64(A)
        self.assertEqual((view.value("key:a"), view.value("key:b")), (b"\2\xff", None))

    def test_fields(self) -> None:
        view = View()
        view.take_shape(["row:lots", "bid:u16", "name:text:3", "by:account,share:u8.."])
        view.take_shape(["key:b", "note:bytes:1", "last:u8"])
        storage = StorageByReceipts(view)
        account = b"bob".ljust(20, b"\0")
        storage.begin({words.key_of("row:lots:lamp"): b"\2\1ab\0" + account + b"\7", words.key_of("row:lots:vase"): b"\1", A: b"\1",
                       words.key_of("key:b"): b"\1\2"})
        fields = storage.view().fields
        self.assertEqual(fields("row:lots:lamp"), SimpleNamespace(bid=258, name="ab", by=[account], share=[7]))
        self.assertEqual(str(fields("row:lots:lamp")), 'bid 258, name "ab", by [bob], share [7]')
        self.assertIsNone(fields("row:lots:none"))
        self.assertEqual((type(fields("row:lots:lamp").by[0]), type(fields("key:b").note), fields("key:b").last), (Name, Data, 2))
        for key, message in {
            "key:a": "key:a has no line `shape`",
            "row:lots:vase": "the value at row:lots:vase: it has 1 bytes in place of at least 5",
        }.items():
            with self.subTest(key), self.assertRaises(ValueError) as caught:
                fields(key)
            self.assertEqual(str(caught.exception), message)

    def test_names_and_other_bytes_are_compared_with_texts(self) -> None:
        """A name equals its words. What never equals a text is a mistake, in place of an answer."""
        account, key = Name(b"bob".ljust(20, b"\0")), Name(A)
        for name, texts in {account: ("bob", "account:bob", account.hex()), key: ("a", "key:a", A.hex(), "hex:61")}.items():
            for text in texts:
                self.assertTrue(name == text and text == name and not name != text and name in ["c", text], text)
            self.assertTrue(name != "c" and name == bytes(name) and {texts[0]: True}[f"{name}"] and name in {texts[0]} and name not in {"c"})
        self.assertFalse(account == "ab")
        self.assertEqual((f"{Name(bytes([255]) * 20)}", Data(b"ab")[0]), ("ff" * 20, 97))
        for data, text, message in (
            (account, "key:bob", "the account is compared with 'key:bob', which has 32 bytes in place of 20"),
            (account, "z" * 40, f"the account is compared with '{'z' * 40}': account:{'z' * 40}: an account has at most 20 bytes, and this is 40"),
            (account, "7", "the account is compared with '7': account:7: an account has a name, and this is a number"),
            (account, "", "the account is compared with '': account:: no name follows it"),
            (key, "k" * 33, f"the key is compared with '{'k' * 33}': key:{'k' * 33}: a key has at most 32 bytes, and this is 33"),
            (Data(b"no")[:1], "n", "1 bytes are compared with the text 'n', which they never equal"),
        ):
            with self.subTest(text), self.assertRaises(MistakeError) as caught:
                self.assertFalse(data == text)
            self.assertEqual(str(caught.exception), message)

    def test_changes_that_are_shown(self) -> None:
        old, new = (storages.Fields(buyer=Name(b"bob".ljust(20, b"\0")), note="x" * 200, state=state) for state in (1, 2))
        (line,) = storages.change_lines("deals", {"one": old}, {"one": new})
        self.assertTrue(line.startswith("deals['one'].state: 1 -> 2  (buyer bob, note"), line)
        self.assertEqual(list(storages.change_lines("n", b"\1" * 99, None)), [f"n: {'01' * 99} -> None"])
        bob, one, two = Name(b"bob".ljust(20, b"\0")), storages.Fields(a=1), storages.Fields(a=2)
        changes: tuple[tuple[object, object, str], ...] = (
            (1, 2, "n: 1 -> 2"), (1, True, "n: 1 -> True"), (bob, None, "n: bob -> None"), ({"a": 1}, 5, "n: {'a': 1} -> 5"), (5, {}, "n: 5 -> {}"),
            (one, two, "n.a: 1 -> 2"), (one, 5, "n: a 1 -> 5"), (5, one, "n: 5 -> a 1"),
            (storages.Fields(a=1, b=3, c=4), storages.Fields(a=2, b=3, c=4), "n.a: 1 -> 2  (b 3, c 4)"),
        )
        for before, after, wanted in changes:
            self.assertEqual(list(storages.change_lines("n", before, after)), [wanted])
        self.assertEqual(list(storages.change_lines("n", 1, 1)), [])
        self.assertEqual(list(storages.change_lines("n", {"a": b"\1", "b": 1}, {"a": b"\2", "c": 3})),
                         ["n['a']: 01 -> 02", "n['b']: 1 -> None", "n['c']: None -> 3"])


class OfFoundLists(InFolder):
    def test_a_whole_list(self) -> None:
        key_a, key_b, key_c = (words.key_of(f"key:{name}") for name in "abc")
        head = "shape key:a sum:u64\nshape input put u8:0 u8\nstore key:b u8:1\n"
        self.write("old", f"store {key_c.hex()} 07\nend\n")
        description = Description(self.write("a.explore", f"rules 3\nprogram bank echo.elf\nstorage old\n{head}time key:t u8:9 0..50\n"
                                             "draw n 1..9\ndraw k key:c\ncall bank 100 00 u8:{n}\ncall bank 100 {k}\n"))
        storage, (put, other) = StorageByReceipts(description.blocks.view), description.kinds
        for word in ("key:a", "key:b"):
            storage.new_key(word)
        finding = Finding([DrawnCall(put, {"n": 5}), DrawnCall(put, {"n": 6}, 2), DrawnCall(other, {"k": "key:c"})], [
            Receipt(0, End.RETURNED, 5, 0, b"\7", changes={key_a: Written((5).to_bytes(8, "little")), key_c: Written(key_b)}),
            Receipt(0, End.REVERTED, 5, 0, b"no"), Receipt(1, End.OUT_OF_GAS, 100, 0, b""),
        ], Broken(2, "line 9", "line 9: x", ["sum: 1 -> 2", "n: 1 -> 2"]))
        view = foundlists.view_of(description, storage, finding)
        wanted = f"""\
# Made by rvstm-tools explore a.explore --seed 7. The last call breaks
# line 9: x
# Each line `expect` says what came: put there what should come, and this is a test.
rules 3
program bank echo.elf
storage old
{head}store key:t u8:9

# put(5)
call bank 100 00 u8:5
expect returned 07
expect key:a u64:5  # sum 5
expect key:c key:b
expect no other write

block
store key:t u8:11

# put(6)
call bank 100 00 u8:6
expect reverted "no"

# {key_c.hex()}  (it fits no shape of an input)
call bank 100 key:c
expect out-of-gas
# sum: 1 -> 2
# n: 1 -> 2
"""
        lines = foundlists.list_lines(description, view, finding, Limits(1, 100, None, 7), self.folder)
        self.assertEqual("".join(f"{line}\n" for line in lines), wanted)

    def test_the_most_ends_that_are_counted_one_by_one(self) -> None:
        description = Description(self.write("a.explore", CALL))
        search = Search(Limits(1, 1, None, 1))
        search.counts.update({Counted(5, End.REVERTED, bytes([number])): 10 + number for number in range(10)})
        lines = list(foundlists.count_lines(description, search))[2:]
        self.assertEqual((lines[0], lines[7:]), ("           19  reverted 09", ["           12  reverted 02", "           21  otherwise"]))

    def test_values_that_were_kept(self) -> None:
        some, numbers_ = AnyBytes(Span(0, 2)), NumberSpans((Span(3, 5), Span(9, 9)))
        right: tuple[tuple[Place, str, object], ...] = (
            (some, "", b""), (some, "00ff", b"\0\xff"), (numbers_, "9", 9), (Words(("a", "5")), "5", "5"),
        )
        for place, word, value in right:
            self.assertEqual(saved.value_of(place, word), value)
        wrong: tuple[tuple[Place, str], ...] = (
            (some, "000000"), (some, "zz"), (numbers_, "7"), (numbers_, "10"), (numbers_, "x"), (Words(("a",)), "7"),
        )
        for place, word in wrong:
            with self.subTest(word), self.assertRaisesRegex(UserError, f"^{word}: the description has no such value in this place"):
                saved.value_of(place, word)


class OfWords(unittest.TestCase):
    def test_words_say_their_bytes(self) -> None:
        for data, word in {
            b"": '""', b"\7\0\0\0": "u32:7", bytes(8): "u64:0", b"hi you": '"hi you"', b'"': "22", b"\xff": "ff", b"ab": '"ab"',
        }.items():
            self.assertEqual(words.word_of(data), word)
            self.assertEqual(words.bytes_of(word), data)

    def test_expect_lines(self) -> None:
        receipt = Receipt(0, End.RETURNED, 5, 0, b"ok", changes={A: Written(b"\1"), Key(bytes(32)): Removed()})
        self.assertEqual(list(foundlists.expect_lines(receipt, View({A: "key:a"}))), [
            'expect returned "ok"', "expect key:a 01", f"expect {'00' * 32} gone", "expect no other write"])
        for end, line in {End.OUT_OF_GAS: "expect out-of-gas", End.ILLEGAL: "expect trapped illegal"}.items():
            self.assertEqual(list(foundlists.expect_lines(Receipt(0, end, 5, 0, b""), View())), [line])
        self.assertEqual(foundlists.shown_change(A, Written(A), View({A: "key:a"})), "key:a")
        self.assertEqual(foundlists.shown_change(A, Added(7), View()), "add 7")


REVERTED = "call {} reverted gas 5 pc 00010000 out 6e6f\n"
RETURNED = "call {} returned gas 5 pc 00010000 out {}\n"


class InPlace(abc.ABC):
    """Used in place of a session of `rvstm chain`, without a process: it answers a frame by what each call does."""

    def __init__(self, _: Path, settings: Settings) -> None:
        assert settings == Settings(brief=True)

    def ask(self, request: Request) -> Answer:
        if request.word == Word.BEGIN:
            self.begin()
        if request.word != Word.FRAME:
            return Done()
        calls = [line.split()[3] for line in request.body.decode().splitlines() if line.startswith("call ")]
        return Done("".join([*map(self.receipt, itertools.count(), calls), "end\n"]).encode())

    def begin(self) -> None:
        """Begins with an empty storage."""

    @abc.abstractmethod
    def receipt(self, number: int, data: str) -> str:
        """The lines of the call of this number with this input in hex."""

    def kill(self) -> None:
        """There is nothing to end."""


class Chain(InPlace):
    """Calls return their input, and write the last byte of it at the key `a`; 66 is never written."""

    def receipt(self, number: int, data: str) -> str:
        written = "" if data[-2:] == "42" else f"write {number} {A.hex()} {data[-2:]}\n"
        return RETURNED.format(number, data) + written


class Bank(InPlace):
    """A balance at key `a`: 00 N adds N, 01 N takes N away if so much is there, and otherwise reverts."""

    balance = 0

    def begin(self) -> None:
        self.balance = 0

    def receipt(self, number: int, data: str) -> str:
        left = self.balance + int(data[2:], 16) * (-1 if data[:2] == "01" else 1)
        if left < 0:
            return REVERTED.format(number)
        self.balance = left
        value = left.to_bytes(8, "little").hex()
        return RETURNED.format(number, value) + f"write {number} {A.hex()} {value}\n"


class BankThatAdds(Bank):
    """01 N adds, too, but for 77: that reverts."""

    def receipt(self, number: int, data: str) -> str:
        return REVERTED.format(number) if data == "014d" else super().receipt(number, f"00{data[2:]}")


class Explored(InFolder):
    SESSION: type[InPlace] = Chain

    def setUp(self) -> None:
        super().setUp()
        self.enterContext(mock.patch.object(shortening, "OTHERS", 20))  # so that the tests are fast
        self.use(self.SESSION)
        self.program = Path(self.write("rvstm", "the session is not of this file"))
        self.program.chmod(0o755)
        self.write("echo.elf", "a program\n")

    def use(self, session: type[InPlace]) -> None:
        self.enterContext(mock.patch.object(runs, "Session", session))


class OfRuns(Explored):
    def explored(self, rule: str, *more: str) -> tuple[int, list[str]]:
        text = f"program echo echo.elf\ndraw some 0..200\ncall echo 100 u8:{{some}}\n{rule}\n"
        path = self.write("a.explore", text)
        words = ["explore", "--program", str(self.program), path, "--calls", "2000", "--jobs", "1", *more]
        status, output, faults = called(*words)
        self.assertEqual(faults, "")
        return status, output.splitlines()

    def test_nothing_is_broken(self) -> None:
        status, lines = self.explored("returned number(output) == some")
        self.assertEqual((status, lines[-1]), (0, "nothing is broken"))
        self.assertRegex(lines[0], r"a.explore: 2,000 calls in .* s, .* a second, seed 1$")
        self.assertEqual(lines[1:3], ["  line 3: call echo 100 u8:{some}", "        2,000  returned"])

    def test_the_shortest_sequence(self) -> None:
        """66 is the one number that is not written."""
        status, lines = self.explored("returned u8('key:a') == some")
        self.assertEqual(status, 1)
        self.assertIn("call echo 100 u8:66", lines)
        self.assertEqual(sum(line.startswith("call ") for line in lines), 1)
        self.assertIn("# line 4: returned u8('key:a') == some", lines)
        self.assertIn('expect returned "B"', lines)

    def test_two_calls(self) -> None:
        """A number above 100 is broken by what the call before it wrote."""
        status, lines = self.explored("returned before.u8('key:a') <= 100 or some <= 100")
        self.assertEqual(status, 1)
        self.assertEqual([line for line in lines if line.startswith("call ")], ["call echo 100 u8:101", "call echo 100 u8:101"])

    def test_what_raises_is_broken(self) -> None:
        status, lines = self.explored("let a = len(value('key:a'))")
        self.assertEqual(status, 1)
        self.assertIn("broken by the storage before any call: line 4: let a = len(value('key:a')): TypeError: object of type "
                      "'NoneType' has no len()", lines)

    def test_a_list_is_written(self) -> None:
        out = self.folder / "found.list"
        status, lines = self.explored("returned some != 7", "--out", str(out), "--length", "50")
        self.assertEqual((status, lines[-1]), (1, f"written to {out}"))
        text = out.read_text(encoding="utf-8")
        self.assertTrue(text.startswith("# Made by rvstm-tools explore a.explore --seed 1 --length 50. The last call breaks\n"))
        self.assertIn("program echo echo.elf\n", text)
        self.assertIn("call echo 100 u8:7\nexpect returned 07\n", text)

    def test_calls_that_never_return(self) -> None:
        """They are reported. If no call returned, nothing was tried."""
        reverted = mock.patch.object(Chain, "receipt", lambda _, number, data: REVERTED.format(number))
        with reverted:
            self.assertEqual(self.explored("")[1][-2:], ["line 3 never returned", "nothing is broken, but no call returned"])
            self.assertEqual(self.explored("")[0], 1)
        self.use(Bank)
        both = "call echo 100 01 u8:{some}\nmay-end out-of-gas\ncall echo 100 01 u8:{more=some}"
        for options, wanted in {(): 0, ("--strict",): 1}.items():
            with mock.patch.object(Bank, "receipt", lambda _, number, data: RETURNED.format(number, data) if len(data) == 2 else REVERTED.format(number)):
                status, lines = self.explored(both, *options)
            self.assertEqual((status, lines[-3:]), (wanted, ["line 4 never returned", "line 6 never returned", "nothing is broken"]))

    def test_bytes_and_a_text(self) -> None:
        status, _, faults = called("explore", "--program", str(self.program), self.write("a.explore", f"{CALL}returned output != 'bob'\n"))
        self.assertEqual((status, faults.replace(f"{self.folder}/", "")), (2, "explore: a.explore, line 6: 1 bytes are compared with the text "
                         "'bob', which they never equal\n"))

    def test_only_true_and_false_are_answers(self) -> None:
        path = self.folder / "a.explore"
        for rule, value in {
            "returned 'the deal is closed'": "'the deal is closed'", "holds 1": "1", "returned output": "b'", "always None": "None",
            "always (gas := 5) and 0": "0", "storage\nholds keys()": "[",
        }.items():
            status, output, faults = called("explore", "--program", str(self.program), self.write("a.explore", f"{CALL}{rule}\n"))
            line = 7 if "storage" in rule else 6
            self.assertEqual((status, output, faults.count("\n")), (2, "", 1), rule)
            self.assertTrue(faults.startswith(f"explore: {path}, line {line}: an expression has to be True or False, and this is {value}"), faults)

    def test_one_seed_makes_the_same_calls(self) -> None:
        one, other = self.explored("returned some < 190"), self.explored("returned some < 190")
        self.assertEqual([line for line in one[1] if " s" not in line], [line for line in other[1] if " s" not in line])

    def test_wrong_command_lines(self) -> None:
        for words, message in (
            (("a", "--calls", "0"), "--calls: 0: it is a number of at least 1"),
            (("a", "--length", "x"), "--length: x: it is a number of at least 1"),
            (("a", "--jobs", "-1"), "--jobs: -1: it is a number of at least 1"),
            (("a", "--seconds", "0"), "--seconds: 0: it is a number above 0"),
            (("a", "--seconds", "nan"), "--seconds: nan: it is a number above 0"),
            (("a", "--out", "/nowhere/a.list"), "--out: /nowhere/a.list: its folder is not there"),
        ):
            with self.subTest(words):
                status, _, faults = called("explore", *words)
                self.assertEqual((status, faults.splitlines()[-1]), (2, f"rvstm-tools explore: error: argument {message}"))
        status, _, faults = called("explore", "--program", str(self.program), f"{self.folder}/nowhere")
        self.assertEqual((status, faults), (2, f"explore: {self.folder}/nowhere: No such file or directory\n"))


class OverProcesses(InFolder):
    """The session is a process, as it is outside of tests. It reads the bytes of each request, and answers each frame of one call."""

    SESSION = """\
#!/bin/sh
while read -r line; do
    head -c ${line##* } >/dev/null
    case $line in
    frame*) printf 'ok 45\\ncall 0 returned gas 5 pc 00010000 out 07\\nend\\n' ;;
    *) echo ok 0 ;;
    esac
done
"""

    def explored(self, session: str, *words: str) -> tuple[int, str, str]:
        program = Path(self.write("rvstm", session))
        program.chmod(0o755)
        self.write("echo.elf", "a program")
        return called("explore", "--program", str(program), self.write("a.explore", CALL), *words)

    def test_answers(self) -> None:
        status, output, faults = self.explored(self.SESSION, "--calls", "7", "--length", "1")
        unknown = f"which branches no call reached is not known: {self.folder}/echo.elf: not an ELF file of 32 bits, or only a part of one"
        self.assertEqual((status, output.splitlines()[1:], faults), (0, [
            "  line 5: call echo 100 u8:{some}", "            7  returned", unknown, "nothing is broken"], ""))

    def test_a_refused_program(self) -> None:
        refused = "#!/bin/sh\nwhile read line; do echo refused elf BadMagic 2; done\n"
        self.assertEqual(self.explored(refused), (2, "", f"explore: {self.folder}/echo.elf: refused elf BadMagic 2\n"))
        self.assertEqual(self.explored("#!/bin/sh\nread line\n"), (2, "", f"explore: {self.folder}/echo.elf: rvstm chain ended\n"))


BANK_CALLS = "program bank echo.elf\ndraw n 1..200\n{model}call bank 100 00 u8:{{n}}\n{more}call bank 100 01 u8:{{n}}\n{most}"
MODEL = """\
class Bank:
    def __init__(self, storage):
        self.balance = storage.u64("key:a")

    def put(self, n):
        self.balance += n
        return self.balance

    def take(self, n):
        if n > self.balance:
            return "no"
        self.balance -= n
        return self.balance.to_bytes(8, "little")

    def invariant(self, storage):
        assert storage.u64("key:a") == self.balance
"""


class OverBank(Explored):
    """Tests with a session whose calls depend on one another."""

    SESSION = Bank
    CALLS = 1000

    def described(self, *, model: str = "", more: str = "", most: str = "") -> str:
        return self.write("a.explore", BANK_CALLS.format(model=model, more=more, most=most))

    def explored(self, path: str, *options: str) -> tuple[int, list[str], str]:
        """The status of an exploration, its lines, and its errors."""
        words = ["explore", "--program", str(self.program), path, "--calls", f"{self.CALLS}", "--jobs", "1", *options]
        status, output, faults = called(*words)
        return status, output.splitlines(), faults.replace(f"{self.folder}/", "")


class Teller(Bank):
    """A bank that keeps what is asked. 02 is out of gas, 03 removes the balance, and 04 changes nothing."""

    RECEIPTS: typing.ClassVar[dict[str, str]] = {
        "02": "call {} out-of-gas gas 100 pc 00010000 out -\n",
        "03": f"call {{0}} returned gas 5 pc 00010000 out -\nwrite {{0}} {A.hex()} gone\n", "04": "call {} returned gas 5 pc 00010000 out 09\n",
    }
    asked: typing.ClassVar[list[bytes]] = []

    def ask(self, request: Request) -> Answer:
        self.asked.append(request.text())
        return super().ask(request)

    def receipt(self, number: int, data: str) -> str:
        return self.RECEIPTS[data].format(number) if data in self.RECEIPTS else super().receipt(number, data)


class OfSequences(OverBank):
    """What a run asks of its session, and what it says of each call."""

    SESSION = Teller
    HEAD = "program bank echo.elf\nstore key:b u8:1\nstore key:c u8:2\ndraw n 1..200\ndraw who alice bob\n"
    PUT, TAKE, DIE, CLEAR, KEEP = (f"call bank 100 {word}\n" for word in ("00 u8:{n}", "01 u8:{n}", "02", "03", "04"))
    NAME = hashlib.sha256(b"a program\n").hexdigest()

    def run_of(self, text: str) -> SequenceRun:
        Teller.asked.clear()
        return self.enterContext(SequenceRun(self.program, Description(self.write("a.explore", text))))

    def calls(self, run: SequenceRun, *calls: tuple[int, ...]) -> list[DrawnCall]:
        """Each by the number of its kind, its amount, and how much time passes before it."""
        kinds = run.description.kinds
        return [DrawnCall(kinds[kind], {"n": amount} if kinds[kind].places else {}, *step) for kind, amount, *step in calls]

    def frame(self, *lines: str) -> bytes:
        text = f"rvblock 1\nprogram 0 {self.NAME}\n" + "".join(f"{line}\n" for line in lines)
        return b"frame %d\n%s" % (len(text), text.encode())

    def test_what_is_asked_counted_and_seen(self) -> None:
        lets = "let sum = u64('key:a')\nlet many = len(keys())\nalways every.who == ['alice', 'bob'] and sum == u64('key:a')\n"
        run = self.run_of(self.HEAD + lets + self.PUT + self.TAKE + "reverted output == b'no'\n" + self.CLEAR + "returned many == 2\n")
        self.assertIsNone(run.begin())
        self.assertIsNone(run.go_on(self.calls(run, (0, 5), (1, 3), (1, 4), (1, 2), (2, 0))))
        self.assertEqual(Teller.asked[0], b"program 10\na program\n")
        self.assertEqual(Teller.asked[1].split()[:3], [b"begin", b"0", b"-"])
        self.assertEqual(Teller.asked[2:], [self.frame("call 0 100 0005", "call 0 100 0103", "call 0 100 0104", "call 0 100 0102", "call 0 100 03")])
        self.assertEqual((run.calls, run.done, list(run.seen)), (5, 5, [5, 5, 2, 2, 0, 0]))
        self.assertEqual(run.counts, {Counted(9, End.RETURNED, b""): 1, Counted(10, End.RETURNED, b""): 2,
                                      Counted(10, End.REVERTED, b"no"): 1, Counted(12, End.RETURNED, b""): 1})
        self.assertEqual(run.storage.words, {words.key_of(word): word for word in ("key:a", "key:b", "key:c")})
        for _ in range(2):
            self.assertIsNone(run.go_on(self.calls(run, *((0, amount) for amount in range(1, 40)))))
        self.assertEqual((len(run.seen), run.seen[-1], run.seen[0]), (64, 2 * 780, 780 + 1 + 2 + 3 + 4 + 5 + 6 + 7 + 8))

    def test_time(self) -> None:
        """The value of the clock is written before each block that has a time. Line 4 cannot be computed at 12."""
        run = self.run_of(f"program bank echo.elf\ntime key:t u8:9 0..50\ndraw n 1..200\nlet late = 1 // (12 - u8('key:t'))\n{self.PUT}")
        one, other, third = (self.calls(run, call) for call in ((0, 1), (0, 1, 2), (0, 1, 1)))
        self.assertEqual((run.begin(), run.go_on(one), run.go_on(other)), (None, None, None))
        call = "call 0 100 0001"
        self.assertEqual(Teller.asked[2:], [self.frame(call), self.frame(f"store {b't'.hex():0<64} 0b", call)])
        broken = run.go_on(third)
        assert broken
        self.assertEqual((broken.at, broken.rule, broken.text.rpartition(": ")[2]), (2, "line 4", "integer division or modulo by zero"))
        self.assertEqual((len(Teller.asked), len(run.outcomes), list(run.seen)), (4, 2, [1, 1, 11, 2, 2, 12]))
        run = self.run_of(self.HEAD + self.PUT)
        run.begin()
        self.assertIsNone(run.go_on(self.calls(run, (0, 1, 7))))
        self.assertEqual(Teller.asked[2:], [self.frame(call)])

    def test_findings(self) -> None:
        run = self.run_of(self.HEAD + f"let sum = u64('key:a')\nlet twice = 2 * sum\n{self.PUT}returned n != 7\n{self.TAKE}storage\nholds sum == 9\n")
        calls = self.calls(run, (0, 5), (0, 7), (0, 5), (0, 5, 2))
        self.assertEqual(run.finding_of(calls), Finding(calls[:2], run.outcomes[:2], Broken(
            1, "line 9", "line 9: returned n != 7", ["sum: 5 -> 12", "twice: 10 -> 24"])))
        self.assertEqual(len(run.outcomes), 2)
        self.assertIsNone(run.finding_of([]))
        self.assertIsNone(run.finding_of(self.calls(run, (0, 4), (0, 5))))
        for count in (1, 3):
            finding = run.finding_of(self.calls(run, *[(0, 1)] * count))
            assert finding
            self.assertEqual((finding.broken.at, finding.broken.rule, len(finding.calls), len(finding.outcomes)), (count - 1, "line 12", count, count))
            self.assertFalse(finding.broken.is_as(Broken(count - 1, "line 9", finding.broken.text, [])))

    def test_what_breaks(self) -> None:
        ended = "ended out-of-gas, and no line `may-end` allows it"
        for text, calls, broken in (
            (f"always u8('key:b') == 2\n{self.PUT}", (), Broken(0, "line 6", "line 6: always u8('key:b') == 2", [])),
            (f"{self.PUT}{self.DIE}", ((0, 1), (1, 0)), Broken(1, "line 7: ended out-of-gas", f"line 7: {ended}", [])),
            (f"{self.PUT}{self.DIE}may-end out-of-gas\n", ((0, 1), (1, 0)), None),
            (f"{self.KEEP}holds [][0] == 1\n", ((0, 0),), Broken(0, "line 7", "line 7: holds [][0] == 1: IndexError: list index out of range", [])),
        ):
            with self.subTest(text):
                run = self.run_of(self.HEAD + text)
                self.assertEqual(run.begin() or (run.go_on(self.calls(run, *calls)) if calls else None), broken)

    def test_a_model_that_changes_although_the_storage_does_not(self) -> None:
        """Its lines `let` are computed after each call. A call without a method, and one that is out of gas, it answers by nothing."""
        self.write("count.py", "class Count:\n    made = 0\n    def keep(self):\n        self.made += 1\n        return 9\n")
        run = self.run_of(f"program bank echo.elf\nmodel count.py Count\nlet made = model.made\ndraw n 1..9\n{self.KEEP}method keep\nholds made == before.made + 1\n"
                          f"{self.DIE}method keep\nmay-end out-of-gas\nholds made == before.made\n{self.PUT}")
        self.assertIsNone(run.begin())
        self.assertIsNone(run.go_on(self.calls(run, (0, 0), (0, 0), (1, 0), (2, 3))))

    def test_a_session_that_answers_too_few_calls(self) -> None:
        run = self.run_of(self.HEAD + self.PUT)
        run.begin()
        with mock.patch.object(Teller, "ask", return_value=Done(b"end\n")), self.assertRaises(ValueError):
            run.go_on(self.calls(run, (0, 1)))

    def test_blocks_and_times_of_first_calls(self) -> None:
        call = DrawnCall(Description(self.write("a.explore", self.HEAD + self.PUT)).kinds[0], {"n": 1})
        first = replace(call, step=4)
        self.assertEqual([len(block) for block in runs.blocks_of([first, *[call] * 1024])], [1024, 1])
        self.assertEqual([one.step for one in runs.left([first, call, first], [0, 2])], [4, 4])


class OfShortening(OverBank):
    RULE = "returned before.u64('key:a') != n or n < 50\n"

    def finding(self, run: SequenceRun, *calls: tuple[int, int]) -> Finding:
        """What calls break, each by the number of its kind and its amount."""
        found = run.finding_of([DrawnCall(run.description.kinds[kind], {"n": amount}) for kind, amount in calls])
        assert found
        return found

    def shorter(self, *calls: tuple[int, int]) -> list[str]:
        """The calls that are left if one is left out and numbers of others are changed with it."""
        with SequenceRun(self.program, Description(self.described(most=self.RULE))) as run:
            shorter = Shorter(run, self.finding(run, *calls), 60)
            while shorter.leave_out_one_and_change():
                pass
            return [call.words() for call in shorter.calls]

    def test_a_number_that_depends_on_the_call_that_is_left_out(self) -> None:
        """Without 60 the last call takes 50. Without 30, which is added to 20, it still does."""
        self.assertEqual(self.shorter((0, 20), (0, 30), (0, 60), (1, 110)), ["call bank 100 00 u8:50", "call bank 100 01 u8:50"])

    def test_an_amount_of_the_call_that_is_left_out_is_added_elsewhere(self) -> None:
        """None of the calls alone puts 50."""
        self.assertEqual(self.shorter((0, 20), (0, 20), (0, 20), (1, 60)), ["call bank 100 00 u8:60", "call bank 100 01 u8:60"])

    def test_two_numbers_are_lowered_together(self) -> None:
        with SequenceRun(self.program, Description(self.described(most=self.RULE))) as run:
            shorter = Shorter(run, self.finding(run, (0, 120), (1, 120)), 60)
            while shorter.make_simpler():
                pass
            self.assertEqual([call.values["n"] for call in shorter.calls], [50, 50])

    def test_the_best_so_far_is_kept(self) -> None:
        def interrupt(shorter: Shorter) -> None:
            if len(shorter.calls) < 3:
                raise KeyboardInterrupt

        with SequenceRun(self.program, Description(self.described(most=self.RULE))) as run:
            finding = self.finding(run, (0, 60), (0, 1), (1, 1), (1, 60))
            late = Shorter(run, finding, 0)
            self.assertEqual((late.shorten(random.Random(1)), late.finding), ("; the time was over", finding))
            interrupted = Shorter(run, finding, 60, interrupt)
            self.assertEqual((interrupted.shorten(random.Random(1)), len(interrupted.calls)), ("; it was interrupted", 2))

    def test_calls_that_were_kept(self) -> None:
        description = Description(self.described())
        for line, values, message in (
            (1, {"n": "5"}, f"line 1 of {description.path} is not the call that was kept: another folder is needed"),
            (3, {"m": "5"}, f"line 3 of {description.path} is not the call that was kept: another folder is needed"),
            (3, {"n": "0"}, "0: the description has no such value in this place: another folder is needed"),
            (3, {"n": "x"}, "x: the description has no such value in this place: another folder is needed"),
        ):
            with self.subTest(values), self.assertRaises(UserError) as caught:
                saved.restored(description, [SavedCall(line, values)])
            self.assertEqual(str(caught.exception), message)


class OfSearches(OverBank):
    def test_the_same_is_found_by_any_number_of_processes(self) -> None:
        path = self.described(most="returned before.u64('key:a') != n or n < 50\n")
        found = [self.explored(path, "--length", "20", "--jobs", jobs)[1] for jobs in ("1", "3")]
        one, other = ([line for line in lines if " s, " not in line and " s" != line[-2:]] for lines in found)
        self.assertEqual(one, other)
        self.assertIn("call bank 100 00 u8:50", one)

    def test_a_list_is_written_before_it_is_shortened(self) -> None:
        out, lists = self.folder / "found.list", list[str]()

        def keep(_: Shorter, __: random.Random) -> str:
            lists.append(out.read_text(encoding="utf-8"))
            return "; nothing was tried"

        with mock.patch.object(Shorter, "shorten", keep):
            status, lines, _ = self.explored(self.described(most=self.rule()), "--out", str(out))
        self.assertEqual(status, 1)
        self.assertIn("The last call breaks\n", lists[0])
        self.assertRegex(lines[-2], "^of [0-9]+ calls [0-9]+ are left, after 0 runs in .* s; nothing was tried$")

    def rule(self) -> str:
        """A line that is broken."""
        return "returned n != 77\n"

    def test_a_run_goes_on_from_a_folder(self) -> None:
        words = ("--folder", str(self.folder / "kept"), "--length", "100")
        right = self.described()
        self.assertEqual(self.explored(right, *words)[1][-1], "nothing is broken")
        state = json.loads((self.folder / "kept/explored.json").read_text(encoding="utf-8"))
        self.assertEqual((state["next"], state["found"]), (10, None))
        self.explored(right, *words)
        self.assertEqual(json.loads((self.folder / "kept/explored.json").read_text(encoding="utf-8"))["next"], 20)
        other = self.write("b.explore", Path(right).read_text(encoding="utf-8") + self.rule())
        self.assertEqual(self.explored(other, *words)[::2], (
            2, "explore: kept/explored.json: the run there has another description, seed or length: name another folder\n"))
        for wrong in (
            {}, state | {"next": "7"}, state | {"next": -1}, state | {"next": 10**30}, state | {"found": [{"line": 1e999, "values": {}}]},
            state | {"found": [{"line": 1, "values": {"n": 7}}]}, "[" * 100_000,
        ):
            text = wrong if isinstance(wrong, str) else json.dumps(wrong)
            (self.folder / "kept/explored.json").write_text(text, encoding="utf-8")
            self.assertEqual(self.explored(right, *words)[::2], (
                2, "explore: kept/explored.json: this is not what a run leaves: remove it, or name another folder\n"))

    def test_what_was_found_is_tried_first(self) -> None:
        path, words = self.described(most=self.rule()), ("--folder", str(self.folder / "kept"))
        self.assertEqual(self.explored(path, *words)[0], 1)
        status, lines, _ = self.explored(path, *words)
        self.assertEqual((status, lines[0].replace(f"{self.folder}/", "")), (1, "still broken by the calls of kept/found.list: line 5: returned n != 77"))
        self.use(BankThatAdds)
        self.write("echo.elf", "another program")
        status, lines, _ = self.explored(path, *words)
        self.assertEqual((status, lines[0], lines[-1]), (0, "the calls that were found before break nothing now", "nothing is broken"))

    def test_the_line_of_progress(self) -> None:
        class Terminal(io.StringIO):
            def isatty(self) -> bool:
                return True

        output = Terminal()
        description = Description(self.described(most=self.rule()))
        progress = ProgressLine(self.program, description, output)
        with SequenceRun(self.program, description) as run:
            finding = run.finding_of([DrawnCall(description.kinds[0], {"n": 80}), DrawnCall(description.kinds[1], {"n": 77})])
            assert finding
            progress.of_shorter(Shorter(run, finding, 60))
            progress.of_shorter(Shorter(run, finding, 60))  # too soon
        progress.end()
        self.assertEqual(output.getvalue(), "\r\x1b[K2 calls break line 5; 0 runs in 0 s\r\x1b[K")


class OfReached(OverBank):
    DEBUG = """\
#!/bin/sh
while read word rest; do
    case $word in
    g) echo 2 00010008 ecall ;;
    w) echo 0 00010000 addi x0, x0, 0 ;;
    s) echo 1 00010004 beq x0, x0, 8 ;;
    esac
done
"""
    LINES = "0x10000\\nvote\\n/src/a.c:5\\n0x10004\\nvote\\n/src/a.c:5\\n0x10008\\nvote\\n/src/a.c:9\\n"

    def test_a_sample_of_each_way_to_end(self) -> None:
        with SequenceRun(self.program, Description(self.described())) as run:
            sampler = Sampler(run)
            run.begin()
            put, take = run.description.kinds
            run.go_on([DrawnCall(put, {"n": 5}), DrawnCall(put, {"n": 5}), DrawnCall(take, {"n": 3}), DrawnCall(take, {"n": 200})])
            first, second, third = sampler.taken()
        self.assertEqual((first.storage, first.data), ({}, b"\0\5"))
        self.assertEqual((second.storage, second.data), ({A: (10).to_bytes(8, "little")}, b"\1\3"))
        self.assertEqual((third.way.end, third.storage), (End.REVERTED, {A: (7).to_bytes(8, "little")}))
        self.assertEqual(sampler.taken(), [])

    def said(self, sample_of: str) -> str:
        """What is said after a sample was replayed, which runs the first two instructions."""
        self.write("echo.elf", elf_file())
        debug = Path(self.write("debug", self.DEBUG))
        debug.chmod(0o755)
        reached = Reached(debug, Description(self.described()))
        reached.add([Sample(Way(3, End.RETURNED, 0, 5), sample_of, 100, b"", {})])
        reached.samples.put(None)
        reached.thread.join()
        reached.end()
        return reached.said()

    def test_lines_and_instructions(self) -> None:
        self.assertEqual(self.said("bank"), "2 of 3 instructions reached")
        self.write("echo.lines.elf", elf_file())
        tool = Path(self.write("tool", f"#!/bin/sh\ncat >/dev/null; printf '{self.LINES}'\n"))
        tool.chmod(0o755)
        with mock.patch("rvstm_tools.debugging.sources.address_tool", lambda: str(tool)):
            self.assertEqual(self.said("bank"), "1 of 2 lines reached")
            slow = Path(self.write("slow", "#!/bin/sh\nexec sleep 1\n"))
            slow.chmod(0o755)
            reached = Reached(slow, Description(self.described()))
            reached.add([Sample(Way(3, End.RETURNED, 0, 5), "bank", 100, b"", {})])
            first, *_ = reached.covered(0.01)
            self.assertEqual(first, "reached by 0 of 1 calls that ended each in another way:")


class OfModels(OverBank):
    CALLS = 100
    METHODS: dict[str, str] = {"model": "model bank.py Bank\n", "more": "method put\n", "most": "method take\n"}

    def test_a_model_that_is_right(self) -> None:
        self.write("bank.py", MODEL)
        path = self.described(**self.METHODS | {"most": "method take\nalways model.balance == u64('key:a')\n"})
        self.assertEqual(self.explored(path)[1][-1], "nothing is broken")

    def test_other_answers_and_a_broken_invariant(self) -> None:
        for old, new, line, calls in (
            ("+= n\n        return self", "+= n\n        return 1 + self", "# line 5: method put: the model says returned 2, and the call returned u64:1", 1),
            ('"no"', '"yes"', '# line 7: method take: the model says reverted "yes", and the call reverted "no"', 1),
            ('"little")', '"big")', '# line 7: method take: the model says returned u64:72057594037927936, and the call returned u64:1', 2),
            ("-= n", "-= n - 1", "# line 7: method take: the model says returned u64:1, and the call returned u64:0", 2),
            ("return self.balance\n", "return None\n", None, 0),
            ('return "no"', 'return ""', None, 0),
            ("+= n\n        return self.balance", "+= n + 1", "# bank.py, line 15: invariant: assert storage.u64(\"key:a\") == self.balance", 1),
            ("assert storage.u64", "return storage.u64", None, 0),
            ("assert storage.u64(\"key:a\") ==", "return storage.u64(\"key:a\") + 1 ==", "# bank.py: invariant is False", 0),
            ("u64(\"key:a\") ==", "u8(\"key:a\") ==", "# bank.py, line 16: invariant: the value at key:a has 8 bytes and not 1", 1),
        ):
            with self.subTest(new):
                self.write("bank.py", MODEL.replace(old, new))
                status, lines, faults = self.explored(self.described(**self.METHODS))
                self.assertEqual((status, faults), (0 if line is None else 1, ""))
                if line is not None:
                    self.assertIn(line, [found.replace(f"{self.folder}/", "") for found in lines])
                    self.assertEqual(sum(found.startswith("call ") for found in lines), calls)

    def test_mistakes_of_the_author(self) -> None:
        form = "model: a file of Python and the name of a class follow it; it comes once, before all calls"
        of_method = "method: the name of a method follows it, once for a call; a line `model` is above it"
        mistakes: tuple[tuple[str, str, dict[str, str], str | None], ...] = (
            ("", "", {"model": "model bank.py\n"}, f"a.explore, line 3: {form}"),
            ("", "", {"model": "model bank.py Bank\nmodel bank.py Bank\n"}, f"a.explore, line 4: {form}"),
            ("", "", {"model": ""}, f"a.explore, line 4: {of_method}"),
            ("", "", {"more": "method put\nmethod put\n"}, f"a.explore, line 6: {of_method}"),
            ("", "", {"model": "model nothing.py Bank\n"}, "nothing.py: No such file or directory"),
            ("", "", {"model": "model echo.elf Bank\n"}, "a.explore, line 3: echo.elf: a model is a file of Python, with a name that ends with .py"),
            ("", "", {"model": "model bank.py Banks\n"}, "a.explore, line 3: bank.py: there is no class Banks"),
            ("", "", {"more": "method give\n"}, "a.explore, line 5: give: the class Bank of bank.py has no such method"),
            ("put(self, n)", "put(self)", {}, "a.explore, line 5: put: bank.py, line 5: got an unexpected keyword argument 'n'; the call has the places n"),
            ("put(self, n)", "put(self, n, m)", {}, "a.explore, line 5: put: bank.py, line 5: missing a required argument: 'm'; the call has the places n"),
            ("class Bank:", "class Bank", {}, "a.explore, line 3: bank.py, line 1: SyntaxError: expected ':'"),
            ("class Bank:", "nothing\nclass Bank:", {}, "a.explore, line 3: bank.py, line 1: NameError: name 'nothing' is not defined"),
            ("= storage.u64", "= storage.u65", {}, "bank.py, line 3: Bank: AttributeError: 'types.SimpleNamespace' object has no attribute 'u65'"),
            ("= storage.u64(\"key:a\")", "= storage.u64(\"kye:a\")", {}, None),
            ("+= n", "+= m", {}, "bank.py, line 6: Bank.put: NameError: name 'm' is not defined"),
            ("return self.balance\n", "return True\n", {}, "bank.py, line 5: Bank.put: it returned True; it returns bytes, a number, a text, or None"),
            ("return self.balance\n", "return 1.5\n", {}, "bank.py, line 5: Bank.put: it returned 1.5; it returns bytes, a number, a text, or None"),
            ("assert storage.u64(\"key:a\") ==", "return \"other\" or", {},
             "bank.py: Bank.invariant: it returned 'other'; it returns True, False or None"),
            ("assert storage", "assert store", {}, "bank.py, line 16: Bank.invariant: NameError: name 'store' is not defined"),
        )
        for old, new, changed, message in mistakes:
            with self.subTest(message):
                self.write("bank.py", MODEL.replace(old, new, 1) if old else MODEL)
                status, _, faults = self.explored(self.described(**self.METHODS | changed))
                self.assertEqual(status, 2)
                if message:
                    self.assertEqual(faults, f"explore: {message}\n")
