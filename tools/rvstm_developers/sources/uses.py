"""The functions of sources, and each word with what is around it."""

import enum
import re
from collections import defaultdict
from collections.abc import Sequence
from dataclasses import dataclass
from pathlib import Path
from typing import NamedTuple

from rvstm_developers.sources.causes import CAUSE
from rvstm_developers.sources.rattle import Group, Item, code, tree, words

ENDLESS = re.compile(r"\bfor _\w* in 0 \.\. u64 :: MAX$")


class How(enum.Enum):
    PATTERN = enum.auto()
    """An arm, an `if let`, a closure of `map_err` or a function, with its pattern, and perhaps what is matched."""
    RULE = enum.auto()  # an arm `Ok(true)` of a call
    BACK = enum.auto()  # an arm of a call whose error has a name
    ARGUMENT = enum.auto()  # an argument of a call
    CALL = enum.auto()  # the `else` of a `let`, or what follows `.is_err()`, of a call
    IMPL = enum.auto()
    FN = enum.auto()
    BLOCK = enum.auto()
    LET = enum.auto()
    CONST = enum.auto()
    ENDLESS = enum.auto()  # what follows a loop over all numbers of 64 bits
    AFTER = enum.auto()  # what follows a loop


@dataclass(frozen=True)
class Around:
    how: How
    text: str
    scrutinee: str = ""  # what a pattern is compared with
    number: int = 0  # of an argument
    count: int = 0  # of the arguments of its call


@dataclass(frozen=True)
class Use:
    """A word of a source: its place among the items of a group, and what is around it, from outside to inside."""

    path: Path
    items: Sequence[Item]
    index: int
    around: tuple[Around, ...]

    def before(self) -> Item | None:
        return self.items[self.index - 1] if self.index else None

    def after(self) -> Item | None:
        return self.items[self.index + 1] if self.index + 1 < len(self.items) else None

    def is_call(self) -> bool:
        after = self.after()
        return isinstance(after, Group) and after.kind == "(" or is_token(after, "::")

    def is_declared(self) -> bool:
        """Whether it is one of a declaration: of a parameter, a field or a constant."""
        return is_token(self.after(), ":") or any(is_token(self.before(), sign) for sign in ("const", ".", "{"))


class Parameter(NamedTuple):
    name: str
    type: str


@dataclass(frozen=True)
class RattleFunction:
    owner: str | None
    name: str
    parameters: Sequence[Parameter]
    result: str

    def hands_back(self) -> bool:
        """Whether its error is what it was handed."""
        types = (parameter.type for parameter in self.parameters)
        return any(kept and kept[0] != "&" and not CAUSE.search(kept) and self.result.endswith(f", {kept} >") for kept in types)

    def makes_cause(self) -> bool:
        """Whether its result is a cause, and it was handed none."""
        return CAUSE.match(self.result) is not None and not any(CAUSE.search(parameter.type) for parameter in self.parameters)


class Uses:
    def __init__(self, folder: Path) -> None:
        self.functions: defaultdict[str, list[RattleFunction]] = defaultdict(list)
        self.words: defaultdict[str, list[Use]] = defaultdict(list)
        for path in sorted(folder.glob("*/src/**/*.rt")):
            if not is_test(path):
                self.path = path
                self.walk(tree(code(path.read_text(encoding="utf-8"))).items, ())

    def walk(self, items: Sequence[Item], around: tuple[Around, ...]) -> None:
        start, here = 0, around
        for index, item in enumerate(items):
            if is_token(item, "fn") and index + 1 < len(items) and not isinstance(items[index + 1], Group):
                self.note_function(items, index, around)
            if isinstance(item, Group):
                head = items[start:index]
                self.enter(item, head, around, here)
                if item.kind == "{" and ends_statement(items, index):
                    here = (*here, *around_after_loop(words(head), item))
                    start = index + 1
            elif item.text in (";", "=>") or (item.text == "," and not in_generics(items[start:index])):
                start = index + 1
            elif re.match(r"[A-Za-z_]", item.text) and not is_import(items[start:index], here):
                inner = (*here, *let_around(items[start:index]))
                self.words[item.text].append(Use(self.path, items, index, inner))

    def enter(self, group: Group, head: Sequence[Item], around: tuple[Around, ...], here: tuple[Around, ...]) -> None:
        text = words(head)
        if group.kind == "{" and re.search(r"(?:^|[^.] )\bmatch [^{}]*$", top_level(text)):
            self.arms(group.items, text.split("match ", 1)[1], (*here, *let_around(head)))
        elif group.kind == "(" and (text.endswith("matches !") or is_pattern(head)):
            return
        elif group.kind == "(" and text.endswith("map_err") and words(group.items).startswith("| "):
            bars = [index for index, item in enumerate(group.items) if is_token(item, "|")]
            pattern = Around(How.PATTERN, words(group.items[: bars[1]]), text.removesuffix(". map_err"))
            self.walk(group.items[bars[1] + 1 :], (*here, pattern))
        elif group.kind == "(" and (called := called_name(head, text)):
            arguments = split(group.items, ",")
            for number, argument in enumerate(arguments):
                one = Around(How.ARGUMENT, called, number=number, count=len(arguments))
                self.walk(argument, (*here, *let_around(head), one))
        else:
            self.walk(group.items, (*here, *around_of(group, head, text)))

    def arms(self, items: Sequence[Item], scrutinee: str, around: tuple[Around, ...]) -> None:
        start = 0
        while start < len(items):
            arrow = next((index for index in range(start, len(items)) if is_token(items[index], "=>")), None)
            if arrow is None:
                return
            end = end_of_arm(items, arrow + 1)
            pattern = words(items[start:arrow])
            how = How.RULE if pattern == "Ok (true)" else How.BACK if re.match(r"Err \([a-z]\w*\)$", pattern) else None
            more = () if how is None else (Around(how, scrutinee),)
            self.walk(items[arrow + 1 : end], (*around, *more, Around(How.PATTERN, pattern, scrutinee)))
            start = end + 1 if end < len(items) and is_token(items[end], ",") else end

    def note_function(self, items: Sequence[Item], index: int, around: tuple[Around, ...]) -> None:
        name_item = items[index + 1]
        place = next((at for at in range(index, len(items)) if is_group(items[at], "(")), None)
        if place is None or isinstance(name_item, Group):
            return
        group = items[place]
        assert isinstance(group, Group)
        ends = (at for at in range(place, len(items)) if is_token(items[at], ";") or is_group(items[at], "{"))
        after = words(items[place + 1 : next(ends, len(items))])
        parameters = [words(parameter) for parameter in split(group.items, ",")]
        if parameters and re.match(r"(?:& (?:' \w+ )?)?(?:mut )?self$", parameters[0]):
            parameters = parameters[1:]
        named = [parameter_of(parameter) for parameter in parameters]
        result = after[3:] if after.startswith("-> ") else ""
        self.functions[name_item.text].append(RattleFunction(text_of(around, How.IMPL), name_item.text, named, result))


def parameter_of(text: str) -> Parameter:
    name, _, kind = text.removeprefix("mut ").partition(" : ")
    return Parameter(name, kind)


def text_of(around: Sequence[Around], how: How) -> str | None:
    """The text of the innermost of one kind."""
    return next((one.text for one in reversed(around) if one.how is how), None)


def is_test(path: Path) -> bool:
    return any(part.endswith("_tests") or part == "tests" for part in path.parts) or path.name.endswith("tests.rt")


def is_token(item: Item | None, text: str) -> bool:
    return item is not None and not isinstance(item, Group) and item.text == text


def is_group(item: Item, kind: str) -> bool:
    return isinstance(item, Group) and item.kind == kind


def called_name(head: Sequence[Item], text: str) -> str:
    """The function that the items before a group call; empty if they call none."""
    last = head[-1] if head else None
    if last is None or isinstance(last, Group) or not re.match(r"[a-z_]\w*$", last.text):
        return ""
    return "" if text.endswith((f"fn {last.text}", "return")) else last.text


def around_of(group: Group, head: Sequence[Item], text: str) -> list[Around]:
    """What the statement of a group says of the error that leads into it."""
    if group.kind != "{":
        return let_around(head)
    found = re.search(r"\bif let (.*?) = (?!=)", text)
    if found and not text.endswith("else"):
        return [Around(How.PATTERN, found[1])]
    found = re.search(r"\blet (?:Ok|Some) \(.*?\) = (.*) else$", text) or re.search(r"\bif (.*?) \. is_err \(\)", text)
    if found:
        return [Around(How.CALL, found[1])]
    found = re.search(r"\bimpl\b(?: <.*?>)? (?:(.*) for )?(\w+)(?: <.*>)?$", text) or re.search(r"\b(trait) (\w+)", text)
    if found:
        return [Around(How.IMPL, found[2])]
    found = re.search(r"\bfn (\w+)", text)
    if found:
        takes = re.search(r"\bfn \w+ (?:< .*? > )?\((.*?)\)(?: -> .*)?$", text)
        return [Around(How.FN, found[1]), Around(How.PATTERN, takes[1] if takes else "")]
    last = head[-1] if head else None
    is_literal = last is not None and not isinstance(last, Group) and last.text[0].isupper()
    return let_around(head) if is_literal else [Around(How.BLOCK, text)]


def let_around(head: Sequence[Item]) -> list[Around]:
    found = re.match(r"(?:pub (?:\(crate\) )?)?(let|const) (?:mut )?(\w+) (?:: .* )?=(?! =)", words(head))
    return [Around(How.LET if found[1] == "let" else How.CONST, found[2])] if found else []


def around_after_loop(text: str, group: Group) -> list[Around]:
    if ENDLESS.search(text):
        return [Around(How.ENDLESS, "all numbers of 64 bits")]
    return [Around(How.AFTER, words(group.items))] if re.search(r"\bfor .* in ", text) else []


def is_pattern(items: Sequence[Item]) -> bool:
    """Whether the items before a word make it one of a pattern or a comparison."""
    if any(is_token(item, sign) for item in items[-3:] for sign in ("==", "!=")):
        return True
    for item in reversed(items):
        if is_token(item, "let"):
            return True
        if any(is_token(item, sign) for sign in (";", "=", "=>")) or is_group(item, "{"):
            return False
    return False


def in_generics(head: Sequence[Item]) -> bool:
    return sum(is_token(item, "<") for item in head) > sum(is_token(item, ">") for item in head)


def is_import(head: Sequence[Item], around: Sequence[Around]) -> bool:
    texts = [words(head), *(one.text for one in around if one.how is How.BLOCK)]
    return any(re.match(r"(?:pub (?:\(crate\) )?)?use ", text) for text in texts)


def split(items: Sequence[Item], sign: str) -> list[list[Item]]:
    parts: list[list[Item]] = [[]]
    for item in items:
        if is_token(item, sign):
            parts.append([])
        else:
            parts[-1].append(item)
    return [part for part in parts if part]


def ends_statement(items: Sequence[Item], index: int) -> bool:
    """Whether a group in braces is the last of its statement."""
    following = items[index + 1] if index + 1 < len(items) else None
    return following is None or isinstance(following, Group) or following.text not in (".", "?", "else", ";", ",", "=>", "==", "&&", "||")


def end_of_arm(items: Sequence[Item], start: int) -> int:
    if is_group(items[start], "{"):
        return start + 1
    return next((index for index in range(start, len(items)) if is_token(items[index], ",")), len(items))


# ---- calls


class LastCall(NamedTuple):
    """The last call of a text: whether it is one of a method, its type and its name."""

    is_method: bool
    owner: str
    name: str


def last_call(call: str) -> LastCall:
    plain = re.sub(r"(?:(?<=\w )|:: )< [^()]*? > (?=\(|::)", "", top_level(call))
    names: list[tuple[str, str, str]] = re.findall(r"(\. )?(?:(\w+) :: )?(\w+) (?:! )?(?=[(\[])", plain)
    dot, owner, name = names[-1] if names else ("", "", "")
    return LastCall(bool(dot), owner if owner[:1].isupper() else "", name)


def call_name(text: str) -> str:
    """The name of the last call of a text, with its type if that is there."""
    call = last_call(text)
    return f"{call.owner} :: {call.name}" if call.owner else call.name


def top_level(call: str) -> str:
    """A call without what is in its brackets."""
    depth, parts = 0, []
    for sign in call:
        depth -= sign in ")]}"
        if depth == 0:
            parts.append(sign)
        depth += sign in "([{"
    return "".join(parts)
