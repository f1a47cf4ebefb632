"""The header of the library beside its sources in Rattle: sizes of structs, offsets of their fields, and statuses."""

import re
from collections.abc import Iterator
from dataclasses import dataclass

from gate.calls import command
from gate.library import INCLUDE, STRICT
from gate.runner import TOP, Case, Run, Tool, holds, same
from gate.texts import written

SOURCES = TOP / "crates/rvstm_c/src"
STRUCT_OF_C = re.compile(r"^typedef struct \{\n(.*?)^\} (\w+);", re.M | re.S)
FIELD_OF_C = re.compile(r"^    \w[\w *]*?(\w+)(?:\[\d+\])?;", re.M)
STRUCT = re.compile(
    r"^#\[repr\(C\)\]\n(?:#\[[^\n]*\n|///[^\n]*\n)*(?:pub(?:\(\w+\))? )?struct (\w+) \{\n(.*?)^\}", re.M | re.S
)
FIELD = re.compile(r"^    (?:pub(?:\(\w+\))? )?(\w+): ([^{\n]+),$", re.M)
NUMBER = re.compile(r"^(?:pub(?:\(\w+\))? )?const (\w+): u\w+ = ([\d_]+|u64::MAX);", re.M)
ARRAY = re.compile(r"\[(\w+); (\w+)\]")
SIZES = {"u8": 1, "bool": 1, "u32": 4, "u64": 8, "usize": 8}


@dataclass(frozen=True)
class Layout:
    """The size of a struct, and the offset of each of its fields, in order."""

    size: int
    fields: tuple[tuple[str, int], ...]


@dataclass
class Sources:
    """The structs for C and the numbers in the sources in Rattle."""

    structs: dict[str, list[tuple[str, str]]]
    numbers: dict[str, int]

    def measures(self, kind: str) -> tuple[int, int]:
        """The size and the alignment of a type."""
        if array := ARRAY.fullmatch(kind):
            size, align = self.measures(array[1])
            return size * int(self.numbers.get(array[2], 0) or array[2]), align
        if kind.startswith(("*", "&")):
            return 8, 8
        if kind in self.structs:
            return self.layout(kind).size, max(self.measures(field)[1] for _, field in self.structs[kind])
        return SIZES[kind], SIZES[kind]

    def layout(self, name: str) -> Layout:
        """How C lays a struct out."""
        fields, at, widest = [], 0, 1
        for field, kind in self.structs[name]:
            size, align = self.measures(kind)
            at += -at % align
            fields.append((field, at))
            at, widest = at + size, max(widest, align)
        return Layout(at + -at % widest, tuple(fields))


def sources() -> Sources:
    text = "\n".join(path.read_text(encoding="utf-8") for path in sorted(SOURCES.rglob("*.rt")))
    structs = {name: FIELD.findall(body) for name, body in STRUCT.findall(text)}
    numbers = {name: int(number.replace("u64::MAX", str(2**64 - 1)).replace("_", "")) for name, number in NUMBER.findall(text)}
    return Sources(structs, numbers)


def printing(header: str, names: list[str]) -> Iterator[str]:
    """A program that prints the layout of each struct of the header, and its numbers."""
    yield '#include <stdio.h>\n#include "rvstm.h"\nint main(void) {'
    for body, struct in STRUCT_OF_C.findall(header):
        yield f'printf("{struct} %zu", sizeof({struct}));'
        yield from (f'printf(" {field} %zu", offsetof({struct}, {field}));' for field in FIELD_OF_C.findall(body))
        yield "putchar('\\n');"
    yield from (f'printf("{name} %llu\\n", (unsigned long long){name});' for name in names)
    yield "return 0; }\n"


def as_in_rattle(run: Run) -> None:
    """What a program that is compiled from the header prints is what the sources say."""
    header, found = (INCLUDE / "rvstm.h").read_text(encoding="utf-8"), sources()
    of_statuses = re.search(r"^enum rvstm_status \{\n(.*?)^\};", header, re.M | re.S)
    assert of_statuses
    names = ["RVSTM_NO_LIMIT", *re.findall(r"^    (RVSTM_\w+) =", of_statuses[1], re.M)]
    source = written(run.place / "layouts.c", "\n".join(printing(header, names)))
    command(["cc", *STRICT, "-o", run.place / "layouts", source]).done()
    lines = [line.split(" ") for line in command([run.place / "layouts"]).done().splitlines()]
    for name, number in lines[-len(names) :]:
        same(found.numbers.get(name.removeprefix("RVSTM_")), int(number), name)
    layouts = [found.layout(name) for name in found.structs]
    for struct, size, *fields in lines[: -len(names)]:
        layout = Layout(int(size), tuple(zip(fields[::2], map(int, fields[1::2]))))
        holds(layout in layouts, f"{struct}: {layout}", "a struct of crates/rvstm_c with this layout")


def cases() -> list[Case]:
    return [Case("library: its header beside its sources", as_in_rattle, (Tool.CC,))]
