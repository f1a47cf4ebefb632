"""Models beside contracts: a class of the author's that says what each call should answer, and what holds of the storage.

A mistake of the class is reported as its author's, with the file and the line.
"""

import importlib.util
import inspect
import sys
import traceback
from collections.abc import Iterator, Mapping
from contextlib import contextmanager
from pathlib import Path
from types import ModuleType, SimpleNamespace

from rvstm_tools.errors import UserError
from rvstm_tools.exploring import storages
from rvstm_tools.exploring.comparing import MistakeError
from rvstm_tools.exploring.places import Value
from rvstm_tools.exploring.storages import OtherLengthError
from rvstm_tools.texts import words
from rvstm_tools.texts.results import End

INVARIANT = "invariant"
MODULE = "rvstm_tools_model"
ANSWERS = "bytes, a number, a text, or None"


class ModelError(MistakeError):
    """A mistake of the model's author."""


def place_in(path: Path, error: Exception) -> str:
    """The file of a model, and the last of its lines that an error passed."""
    own = [frame.lineno for frame in traceback.extract_tb(error.__traceback__) if frame.filename == str(path)]
    if isinstance(error, SyntaxError) and error.filename == str(path):
        own = [error.lineno]
    return f"{path}, line {own[-1]}" if own else f"{path}"


@contextmanager
def mistakes_of(path: Path, what: str = "") -> Iterator[None]:
    """Reports whatever is raised within it as a mistake of the model's author."""
    try:
        yield
    except Exception as error:
        said = error.msg if isinstance(error, SyntaxError) else f"{error}"
        name = f"{what}: " if what else ""
        raise ModelError(f"{place_in(path, error)}: {name}{type(error).__name__}: {said}") from error


def module_of(path: Path) -> ModuleType:
    """The module of a file, which is run. A UserError if it is no file of Python."""
    path.read_bytes()  # so that a file that is missing is reported by its name
    spec = importlib.util.spec_from_file_location(MODULE, path)
    if spec is None or spec.loader is None:
        raise UserError(f"{path}: a model is a file of Python, with a name that ends with .py")
    module = importlib.util.module_from_spec(spec)
    sys.modules[MODULE] = module
    is_written, sys.dont_write_bytecode = sys.dont_write_bytecode, True  # no folder __pycache__ beside the author's file
    try:
        with mistakes_of(path):
            spec.loader.exec_module(module)
    finally:
        sys.dont_write_bytecode = is_written
    return module


class ModelClass:
    def __init__(self, path: Path, name: str) -> None:
        self.path = path
        self.name = name
        found = getattr(module_of(path), name, None)
        if not inspect.isclass(found):
            raise UserError(f"{path}: there is no class {name}")
        self.made: type = found
        self.has_invariant = hasattr(found, INVARIANT)

    def check_method(self, name: str, places: Mapping[str, object]) -> None:
        """Refuses a method that is not there, or that does not take the places of a call by their names."""
        method = getattr(self.made, name, None)
        if not inspect.isfunction(method):
            raise UserError(f"{name}: the class {self.name} of {self.path} has no such method")
        try:
            inspect.signature(method).bind(None, **places)
        except TypeError as error:
            line = method.__code__.co_firstlineno
            given = ", ".join(places) or "none"
            raise UserError(f"{name}: {self.path}, line {line}: {error}; the call has the places {given}") from error

    def begin(self, storage: SimpleNamespace) -> "Model":
        """A model of a storage: CLASS(storage), or CLASS() if it takes nothing."""
        with mistakes_of(self.path, self.name):
            takes = inspect.signature(self.made).parameters
            return Model(self, self.made(storage) if takes else self.made())


class Model:
    def __init__(self, of: ModelClass, state: object) -> None:
        self.of = of
        self.state = state  # the instance of the author's class

    def difference(self, method: str, values: Mapping[str, Value], end: End, output: bytes) -> str | None:
        """What a call should have answered by a method, and what it did; None if the two agree."""
        what = f"{self.of.name}.{method}"
        with mistakes_of(self.of.path, what):
            answer: object = getattr(self.state, method)(**values)
        wanted = self._said(answer, what)
        came = f"{end} {words.word_of(output)}"
        return None if is_met(answer, end, output) else f"the model says {wanted}, and the call {came}"

    def broken_invariant(self, storage: SimpleNamespace) -> str | None:
        """What the invariant says that does not hold of model and storage; None if it holds."""
        if not self.of.has_invariant:
            return None
        path, what = self.of.path, f"{self.of.name}.{INVARIANT}"
        with mistakes_of(path, what):
            try:
                answer: object = getattr(self.state, INVARIANT)(storage)
            except (AssertionError, OtherLengthError) as error:
                return f"{place_in(path, error)}: {INVARIANT}: {said_of(path, error)}"
        if answer is not None and not isinstance(answer, bool):
            raise ModelError(f"{path}: {what}: it returned {answer!r}; it returns True, False or None")
        return f"{path}: {INVARIANT} is False" if answer is False else None

    def _said(self, answer: object, what: str) -> str:
        """An answer, for people. Another one than a model may give is the author's mistake."""
        if isinstance(answer, str):
            return f'reverted "{answer}"' if answer else "reverted"
        if answer is None:
            return "returned"
        if isinstance(answer, int) and not isinstance(answer, bool):
            return f"returned {answer}"
        if isinstance(answer, bytes):
            return f"returned {words.word_of(answer)}"
        line = getattr(self.of.made, what.rpartition(".")[2]).__code__.co_firstlineno
        raise ModelError(f"{self.of.path}, line {line}: {what}: it returned {answer!r}; it returns {ANSWERS}")


def is_met(answer: object, end: End, output: bytes) -> bool:
    if isinstance(answer, str):
        return end is End.REVERTED and answer.encode() in (b"", output)
    if end is not End.RETURNED:
        return False
    if isinstance(answer, int):
        return storages.number_of(output) == answer
    return answer is None or answer == output


def said_of(path: Path, error: Exception) -> str:
    """What an error says, or the text of the line that raised it."""
    if f"{error}":
        return f"{error}"
    own = [frame.line for frame in traceback.extract_tb(error.__traceback__) if frame.filename == str(path)]
    return own[-1] or type(error).__name__ if own else type(error).__name__
