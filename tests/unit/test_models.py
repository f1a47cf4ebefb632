"""Models of contracts: when an answer is the call's, what is said if it is not, and mistakes of their authors."""

from types import SimpleNamespace

from rvstm_tools.errors import UserError
from rvstm_tools.exploring import models
from rvstm_tools.exploring.models import ModelClass, ModelError
from rvstm_tools.sessions import replays
from rvstm_tools.texts.results import End
from unit.helpers import InFolder

WITHOUT_STORAGE = """\
class Model:
    def __init__(self):
        self.count = 7
    def number(self): return self.count
    def nothing(self): return None
    def text(self, reason): return reason
    def other(self): return True
    def some(self): return b"ab"
    def fails(self): raise KeyError("x")
"""
WITH_INVARIANT = """\
class Model:
    def __init__(self, storage):
        self.value = storage.value
    def invariant(self, storage):
        if storage.value == 3:
            assert False
        assert storage.value != 4, "four"
        return {1: True, 2: False, 5: None, 6: 0}[storage.value]
"""


class Answers(InFolder):
    def test_answers_of_the_model_and_of_the_call(self) -> None:
        for answer, end, output, is_met in (
            ("", End.REVERTED, b"any", True), ("no", End.REVERTED, b"no", True), ("no", End.REVERTED, b"on", False),
            ("no", End.RETURNED, b"no", False), (None, End.RETURNED, b"any", True), (None, End.REVERTED, b"", False),
            (7, End.RETURNED, b"\7\0\0\0", True), (7, End.RETURNED, b"\6\0\0\0", False), (7, End.OUT_OF_GAS, b"\7\0\0\0", False),
            (b"ab", End.RETURNED, b"ab", True), (b"ab", End.RETURNED, b"ac", False),
        ):
            with self.subTest(answer=answer, end=end, output=output):
                self.assertIs(models.is_met(answer, end, output), is_met)

    def test_what_is_said(self) -> None:
        model = ModelClass(self.folder / self.write("a.py", WITHOUT_STORAGE), "Model").begin(SimpleNamespace())
        for method, values, end, output, said in (
            ("number", {}, End.RETURNED, b"ab", 'returned 7, and the call returned "ab"'),
            ("nothing", {}, End.REVERTED, b"", 'returned, and the call reverted ""'),
            ("text", {"reason": ""}, End.RETURNED, b"", 'reverted, and the call returned ""'),
            ("text", {"reason": "no"}, End.REVERTED, b"on", 'reverted "no", and the call reverted "on"'),
            ("some", {}, End.RETURNED, b"", 'returned "ab", and the call returned ""'),
        ):
            with self.subTest(method):
                self.assertEqual(model.difference(method, values, end, output), f"the model says {said}")  # type: ignore[arg-type]
        self.assertIsNone(model.difference("number", {}, End.RETURNED, b"\7\0\0\0"))
        self.assertIsNone(model.broken_invariant(SimpleNamespace()))

    def test_mistakes_of_the_author(self) -> None:
        path = self.folder / self.write("a.py", WITHOUT_STORAGE)
        of = ModelClass(path, "Model")
        model = of.begin(SimpleNamespace())
        for method, said in (("other", f"{path}, line 7: Model.other: it returned True; it returns bytes, a number, a text, or None"),
                             ("fails", f"{path}, line 9: Model.fails: KeyError: 'x'")):
            with self.subTest(method), self.assertRaises(ModelError) as caught:
                model.difference(method, {}, End.RETURNED, b"")
            self.assertEqual(str(caught.exception), said)
        with self.assertRaisesRegex(UserError, "the call has the places none$"):
            of.check_method("text", {})
        with self.assertRaisesRegex(UserError, "a model is a file of Python, with a name that ends with .py"):
            ModelClass(self.folder / self.write("model", WITHOUT_STORAGE), "Model")

    def test_invariants(self) -> None:
        path = self.folder / self.write("a.py", WITH_INVARIANT)
        model = ModelClass(path, "Model").begin(SimpleNamespace(value=1))
        for value, said in ((1, None), (2, f"{path}: invariant is False"), (3, f"{path}, line 6: invariant: assert False"),
                            (4, f"{path}, line 7: invariant: four"), (5, None)):
            with self.subTest(value):
                self.assertEqual(model.broken_invariant(SimpleNamespace(value=value)), said)
        with self.assertRaisesRegex(ModelError, "Model.invariant: it returned 0; it returns True, False or None"):
            model.broken_invariant(SimpleNamespace(value=6))
        path.unlink()
        self.assertEqual(model.broken_invariant(SimpleNamespace(value=3)), f"{path}, line 6: invariant: AssertionError", "its line is gone")

    def test_code_of_other_places(self) -> None:
        """A line is one of the model's file, or none is named."""
        for text, message in (
            ("class Model:\n    exec('def invariant(self, storage): assert False')\n", "invariant: AssertionError"),
            ("class Model:\n    def __init__(self, storage, more): pass\n",
             "Model: TypeError: Model.__init__() missing 1 required positional argument: 'more'"),
            ("class Model:\n    def __init__(self):\n        compile('(', 'other.py', 'exec')\n", "Model: SyntaxError: '(' was never closed"),
        ):
            path = self.folder / self.write("a.py", text)
            with self.subTest(message):
                try:
                    said = ModelClass(path, "Model").begin(SimpleNamespace()).broken_invariant(SimpleNamespace())
                except ModelError as error:
                    said = f"{error}"
                self.assertEqual(said, f"{path}{', line 3' * ('compile' in text)}: {message}")


class Digests(InFolder):
    def test_digests_have_one_form(self) -> None:
        wanted = "0123456789abcdef" * 4
        self.assertEqual(replays.digest_in(self.folder / self.write("a", f"{wanted}\n")), wanted)
        for text in (wanted[1:], f"{wanted}0", wanted[:-1] + "F", "x" * 64, ""):
            with self.subTest(text), self.assertRaisesRegex(UserError, "a digest is 64 digits in hex, in small letters"):
                replays.digest_in(self.folder / self.write("a", text))
