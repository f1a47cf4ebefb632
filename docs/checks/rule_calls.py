"""The public calls that the rules name, with the types of their arguments and results, as docs/rule_calls.txt lists them.

A line of the list is `crate::name(TYPE, ..) -> TYPE`, as the source has it without the names of its arguments. If the rules have
another form, the line ends with `  # ` and the reason. Lines that begin with `#` and empty lines say nothing.
"""

import re
from collections.abc import Iterator

from checks import sources
from checks.calls import PublicCall, call_of, split_types

LIST = sources.TOP / "docs/rule_calls.txt"
NAMED = re.compile(r"^\w+::[\w:]+")
HEAD = re.compile(r"\bfn \w+(?:<.*?>)?\((?P<arguments>.*?),?\)(?: -> (?P<result>.*))?$")


def type_of(argument: str) -> str:
    """An argument's type. `self` has only its form."""
    return argument if re.fullmatch(r"(?:&(?:mut )?|mut )?self", argument) else argument.partition(":")[2].strip()


def signature_of(call: PublicCall) -> str:
    """A call's path with the types of its arguments and its result; the path alone of a type."""
    text = " ".join(line.strip() for line in call.head.splitlines() if not line.strip().startswith("//"))
    text = re.split(r" (?:where|requires|ensures)\b|\{|;", text)[0].strip()
    found = HEAD.search(text)
    if not found:
        return call.full_name
    types = ", ".join(type_of(argument).removeprefix("mut ") for argument in split_types(found["arguments"]))
    result = f" -> {found['result'].strip()}" if found["result"] else ""
    return f"{call.full_name}({types}){result}"


def listed(text: str) -> dict[str, str]:
    lines = (line.partition("  # ")[0].strip() for line in text.splitlines() if not line.startswith("#"))
    return {found[0]: line for line in lines if (found := NAMED.match(line))}


def differences() -> Iterator[str]:
    for path, wanted in listed(LIST.read_text(encoding="utf-8")).items():
        call = call_of(path)
        if not call:
            yield f"docs/rule_calls.txt: there is no public {path}, which the rules name"
        elif signature_of(call) != wanted:
            yield f"docs/rule_calls.txt: {path} is {signature_of(call)}, and not {wanted}"
