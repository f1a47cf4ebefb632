"""A result as a table for people."""

from collections.abc import Iterable, Iterator

from rvstm_tools.texts import shown
from rvstm_tools.texts.results import Receipt, Stored
from rvstm_tools.texts.views import View

HEAD = "call  end                   gas  pc        output"
REGISTERS = (
    "zero ra sp gp tp t0 t1 t2 s0 s1 a0 a1 a2 a3 a4 a5 "
    "a6 a7 s2 s3 s4 s5 s6 s7 s8 s9 s10 s11 t3 t4 t5 t6"
).split()
REGISTERS_A_ROW = 8


def table_lines(items: Iterable[Receipt | Stored], view: View, *, has_registers: bool) -> Iterator[str]:
    """The lines of a table. Each comes as soon as its item is read."""
    has_head = is_in_storage = False
    for item in items:
        if not has_head:
            yield HEAD
            has_head = True
        if isinstance(item, Receipt):
            yield from receipt_lines(item, view, has_registers=has_registers)
            continue
        if not is_in_storage:
            yield "storage"
            is_in_storage = True
        yield f"      {view.key(item.key)}: {view.value(item.key, item.value)}"
    if not has_head:
        yield HEAD


def receipt_lines(receipt: Receipt, view: View, *, has_registers: bool) -> Iterator[str]:
    output = shown.shown_bytes(receipt.output)
    yield f"{receipt.number:>4}  {receipt.end:<15}  {receipt.gas:>8}  {receipt.pc:08x}  {output}"
    if has_registers:
        for first in range(0, len(REGISTERS), REGISTERS_A_ROW):
            row = slice(first, first + REGISTERS_A_ROW)
            words = (f"{name:>4} {value:08x}" for name, value in zip(REGISTERS[row], receipt.registers[row]))
            yield f"        {'  '.join(words)}"
    for key, change in receipt.changes.items():
        yield f"      wrote {view.key(key)}: {view.change(key, change)}"
