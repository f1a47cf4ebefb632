"""Expressions of a description: their names, and what they say. They are Python, and do what their author wrote."""

import ast
import builtins
import keyword
import reprlib
from collections.abc import Iterable, Iterator, Mapping
from dataclasses import dataclass
from types import CodeType
from typing import NamedTuple

from rvstm_tools.errors import UserError
from rvstm_tools.exploring.comparing import MistakeError

NUMBERS = ("u8", "u16", "u32", "u64", "i8", "i16", "i32", "i64")
OF_STORAGE = frozenset({"value", "fields", "keys", "every", "before", "number", "sha256", *NUMBERS})
OF_CALLS = frozenset({"end", "output", "gas"})
MODEL = "model"
OF_BEFORE = frozenset({"value", "fields", *NUMBERS})
OWNERS = ("before", "every")

Names = dict[str, object]  # what expressions see, by its names


class Loaded(NamedTuple):
    """A name that an expression has from outside, and what is before its dot: `before`, `every`, or nothing."""

    owner: str
    name: str


def loaded_names(tree: ast.AST) -> Iterator[Loaded]:
    nodes = list(ast.walk(tree))
    bound = {node.arg for node in nodes if isinstance(node, ast.arg)}
    bound |= {node.id for node in nodes if isinstance(node, ast.Name) and isinstance(node.ctx, ast.Store)}
    for node in nodes:
        if isinstance(node, ast.Name) and node.id not in bound and not hasattr(builtins, node.id):
            yield Loaded("", node.id)
        if isinstance(node, ast.Attribute) and isinstance(node.value, ast.Name) and node.value.id in OWNERS:
            yield Loaded(node.value.id, node.attr)


def code_of(text: str, path: str, known: Mapping[str, Iterable[str]]) -> CodeType:
    """The code of an expression. `known` has the names that it may have, by what is before the dot."""
    try:
        tree = ast.parse(text, path, "eval")
        code: CodeType = compile(tree, path, "eval")
    except SyntaxError as error:
        raise UserError(f"not an expression of Python: {error.msg}") from error
    except (ValueError, RecursionError, MemoryError) as error:  # a zero byte, or too many brackets in one another
        raise UserError(f"not an expression of Python: {error}") from error
    for owner, name in loaded_names(tree):
        if name not in known[owner]:
            raise UserError(f"{owner and owner + '.'}{name}: there is no such name here")
    return code


def new_name(name: str) -> str:
    if not name.isidentifier() or keyword.iskeyword(name):
        raise UserError(f"{name}: a name has letters, digits and _, and is not a word of Python")
    if name in OF_STORAGE | OF_CALLS | {MODEL}:
        raise UserError(f"{name}: this name is taken")
    return name


@dataclass(frozen=True)
class Rule:
    when: str
    line: int
    text: str
    code: CodeType

    def said(self) -> str:
        return f"line {self.line}: {self.when} {self.text}"


@dataclass(frozen=True)
class Raised:
    text: str


def evaluated(rule: Rule, names: Names) -> object | Raised:
    """The value of an expression, or what it raised."""
    try:
        value: object = eval(rule.code, names)  # whatever the author of the description wrote
    except MistakeError as error:
        raise MistakeError(f"{rule.code.co_filename}, line {rule.line}: {error}") from error
    except Exception as error:
        return Raised(f"{type(error).__name__}: {error}")
    return value


def answered(rule: Rule, names: Names) -> bool | Raised:
    """Whether an expression holds, or what it raised. Another value would hold by chance, so it is a mistake."""
    value = evaluated(rule, names)
    if isinstance(value, bool | Raised):
        return value
    raise MistakeError(f"{rule.code.co_filename}, line {rule.line}: {no_answer(value)}")


def no_answer(value: object) -> str:
    return f"an expression has to be True or False, and this is {reprlib.repr(value)}"


def check_constant(text: str) -> None:
    """Refuses a constant that is no answer, even if its call never ends so that it counts."""
    tree = ast.parse(text, mode="eval").body
    if isinstance(tree, ast.Constant) and not isinstance(tree.value, bool):
        raise UserError(no_answer(tree.value))
