"""The refusals that `rvstm` prints: the name and the number of each, and when it comes.

They are read from the enumerations of the sources, whose comments say when. `docs/check --refusals` prints them, one table for each
enumeration. docs/messages.md has the same rows, and what to do; `docs/check` reports each row that differs.
"""

import functools
import re
from collections.abc import Iterator
from dataclasses import dataclass
from pathlib import Path

CRATES = Path(__file__).resolve().parent.parent / "crates"
PAGE = Path(__file__).resolve().parent / "messages.md"
VARIANT = re.compile(r"^    (?P<name>\w+)(?P<held>\(.*\))?(?: = (?P<number>\d+))?,$")
NAME = re.compile(r'\b(?P<variant>\w+::\w+) => "(?P<name>\w+)"')
PARTS = re.compile(r'\b(?P<variant>\w+::\w+) => \w*\(?LineParts::without_line\("(?P<area>\w+)", "(?P<name>\w+)", (?P<number>\d+)\)')
AREA = re.compile(r'(?:without_line|block_parts)\(\s*"(\w+)"|\barea: "(\w+)"')
ROW = re.compile(r"^\| `(?P<message>[^`]+ [A-Z]\w+ \d+)` \| (?P<when>.*?) \|", re.M)
WITHOUT_LINE = "Memory"  # the name that is printed without a line's number, in each area
ANSWERS_OF_DEBUG = ("AtEnd", "AtStart", "BadRange")  # the names that `debug` prints as an answer to a line, `refused` in place of the area


@dataclass(frozen=True)
class Enumeration:
    """An enumeration of refusals, and what is printed before the names that it has."""

    name: str
    file: str
    before: str  # The area, with `N` if a line's number follows. If the source has the area beside each name, the word before it.


@dataclass(frozen=True)
class RefusalRow:
    message: str
    when: str


@dataclass(frozen=True)
class RefusalParts:
    """The area, the name and the number of a refusal. The area is empty if the source has it elsewhere."""

    area: str
    name: str
    number: str


SCHEDULE = "schedule"  # the area of a schedule file. Its refusals are two of `Cause`
ENUMERATIONS = (
    Enumeration("FileFault", "engines/src/fault.rt", "file"),
    Enumeration("WriteFault", "byte_streams/src/fault.rt", "output"),
    Enumeration("Cause", "block_file/src/fault.rt", "block N"),
    Enumeration("ElfError", "elf32/src/error.rt", "elf"),
    Enumeration("AsmCause", "rv_text/src/fault.rt", "asm N"),
    Enumeration("SeqFault", "engines/src/fault.rt", "seq"),
    Enumeration("RunFault", "workers/src/fault.rt", "run"),
    Enumeration("DriveFault", "stm_core/src/driving.rt", "drive"),
    Enumeration("ReplayFault", "debugger/src/fault.rt", "debug"),
    Enumeration("InputFault", "engines/src/fault.rt", "request"),
    Enumeration("FrameRefusal", "session_turns/src/refusal.rt", "refused"),
    Enumeration("Failure", "session_turns/src/refusal.rt", "failed"),
    Enumeration("StoreFault", "session_states/src/fault.rt", ""),
)


@functools.cache
def printed(crate: str) -> dict[str, RefusalParts]:
    """What the variants of a crate's enumerations print, by `Enumeration::Variant`. A name alone has no number."""
    found: dict[str, RefusalParts] = {}
    for path in sorted((CRATES / crate / "src").glob("*.rt")):
        text = path.read_text(encoding="utf-8")
        found |= {match["variant"]: RefusalParts("", match["name"], "") for match in NAME.finditer(text)}
        found |= {match["variant"]: RefusalParts(match["area"], match["name"], match["number"]) for match in PARTS.finditer(text)}
    return found


def message_of(before: str, parts: RefusalParts) -> str:
    if parts.name == WITHOUT_LINE:
        before = before.removesuffix(" N")
    elif parts.name in ANSWERS_OF_DEBUG:
        before = "refused"
    return " ".join(word for word in (before, parts.area, parts.name, parts.number) if word)


def refusals(enumeration: Enumeration) -> Iterator[RefusalRow]:
    """The refusals of an enumeration, in its order. A variant that holds another enumeration is left out."""
    names = printed(enumeration.file.partition("/")[0])
    _, _, after = (CRATES / enumeration.file).read_text(encoding="utf-8").partition(f"pub enum {enumeration.name} {{\n")
    comment: list[str] = []
    for line in after.partition("\n}\n")[0].splitlines():
        variant = VARIANT.match(line)
        if variant and not variant["held"]:
            parts = names[f"{enumeration.name}::{variant['name']}"]
            yield RefusalRow(message_of(enumeration.before, RefusalParts(parts.area, parts.name, variant["number"] or parts.number)), " ".join(comment))
        comment = [*comment, line.strip().removeprefix("/// ")] if line.strip().startswith("///") else []


def all_refusals() -> dict[str, str]:
    return {refusal.message: refusal.when for enumeration in ENUMERATIONS for refusal in refusals(enumeration)}


def areas() -> set[str]:
    texts = (path.read_text(encoding="utf-8") for path in CRATES.glob("*/src/*.rt"))
    return {found[1] or found[2] for text in texts for found in AREA.finditer(text)}


def table_lines() -> Iterator[str]:
    for enumeration in ENUMERATIONS:
        yield from (f"{enumeration.name} ({enumeration.file})", "", "| message | it comes if |", "|---|---|")
        yield from (f"| `{refusal.message}` | {refusal.when} |" for refusal in refusals(enumeration))
        yield ""


def differences() -> Iterator[str]:
    wanted, said = all_refusals(), {row["message"]: row["when"] for row in ROW.finditer(PAGE.read_text(encoding="utf-8"))}
    for message, when in wanted.items():
        if message not in said:
            yield f"{PAGE.name}: no row says when `{message}` comes: {when}"
        elif said[message] != when:
            yield f"{PAGE.name}: `{message}` comes by the source if: {when}"
    for message in sorted(said.keys() - wanted.keys()):
        yield f"{PAGE.name}: the sources do not print `{message}`"
    for area in sorted(areas() - {SCHEDULE, *(word for message in wanted for word in message.split())}):
        yield f"docs/refusals.py: no enumeration has the area {area}, which the sources print"
