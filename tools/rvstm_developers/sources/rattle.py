"""Sources of Rattle as trees of brackets, without comments, strings and contracts."""

import re
from collections.abc import Callable, Sequence
from dataclasses import dataclass, field

OPEN, CLOSE = "([{", ")]}"
TOKEN = re.compile(r"\w+|::|=>|->|==|!=|<=|>=|&&|\|\||\.\.=?|[^\s\w]")
SKIPPED = re.compile(r'//[^\n]*|/\*.*?\*/|b?"(?:\\.|[^"\\])*"|b?\'(?:\\.|[^\'\\])\'', re.S)
GHOST = re.compile(r"\b(?:pub\s+)?ghost\b")
CLAUSE = re.compile(r"\b(?:requires|ensures)\b(?:\s+\w+)?\s*\{|#!?\[")


@dataclass(frozen=True)
class Token:
    text: str
    line: int


@dataclass
class Group:
    """What is between two brackets, the first of which is `kind`."""

    kind: str
    line: int
    items: list["Item"] = field(default_factory=list)


Item = Token | Group


@dataclass(frozen=True)
class Skipped:
    """What a source is read without: how it begins, and where it ends if it begins so."""

    begin: re.Pattern[str]
    end: Callable[[str, re.Match[str]], int]


def blank(text: str) -> str:
    """Spaces in place of a text, on the same lines."""
    return re.sub(r"[^\n]", " ", text)


def end_of_group(text: str, start: int) -> int:
    depth = 0
    for place in range(start, len(text)):
        depth += (text[place] in OPEN) - (text[place] in CLOSE)
        if depth == 0:
            return place + 1
    return len(text)


def end_of_ghost(text: str, start: int) -> int:
    """The place after a ghost item: after its semicolon, at the depth of its beginning."""
    depth = 0
    for place in range(start, len(text)):
        depth += (text[place] in OPEN) - (text[place] in CLOSE)
        if depth < 0 or (depth == 0 and text[place] in ";,"):
            return place + 1
    return len(text)


def code(text: str) -> str:
    """A source without comments, strings, attributes, clauses and ghost items, on the same lines."""
    text = SKIPPED.sub(lambda found: '""' + blank(found[0])[2:] if found[0][0] in "b\"'" else blank(found[0]), text)
    for skipped in (
        Skipped(GHOST, lambda text, found: end_of_ghost(text, found.start())),
        Skipped(CLAUSE, lambda text, found: end_of_group(text, found.end() - 1)),
    ):
        found = skipped.begin.search(text)
        while found:
            stop = skipped.end(text, found)
            text = text[: found.start()] + blank(text[found.start() : stop]) + text[stop:]
            found = skipped.begin.search(text, found.start() + 1)
    return text


def tree(text: str) -> Group:
    top = Group("", 1)
    stack, line, place = [top], 1, 0
    for found in TOKEN.finditer(text):
        line += text.count("\n", place, found.start())
        place = found.start()
        sign = found[0]
        if sign in OPEN:
            group = Group(sign, line)
            stack[-1].items.append(group)
            stack.append(group)
        elif sign in CLOSE and len(stack) > 1:
            stack.pop()
        else:
            stack[-1].items.append(Token(sign, line))
    return top


def words(items: Sequence[Item]) -> str:
    parts = []
    for item in items:
        if isinstance(item, Group):
            close = CLOSE[OPEN.index(item.kind)]
            parts.append(item.kind + words(item.items) + close)
        else:
            parts.append(item.text)
    return " ".join(parts)
