"""A result as lines of JSON: an object for each call, each key of the storage, and the end (result_schema.py)."""

import json
from collections.abc import Iterable, Iterator

from rvstm_tools.texts.keys import Key
from rvstm_tools.texts.results import Added, Change, Receipt, Removed, Stored

Object = dict[str, object]  # an object of JSON


def json_lines(items: Iterable[Receipt | Stored], *, has_registers: bool) -> Iterator[str]:
    """The lines. Each comes as soon as its item is read."""
    calls = keys = 0
    for item in items:
        if isinstance(item, Receipt):
            calls += 1
            yield json.dumps(object_of_call(item, has_registers=has_registers))
        else:
            keys += 1
            yield json.dumps({"kind": "store", "key": item.key.hex(), "value": item.value.hex()})
    yield json.dumps({"kind": "end", "calls": calls, "keys": keys})


def object_of_call(receipt: Receipt, *, has_registers: bool) -> Object:
    call: Object = {"kind": "call", "call": receipt.number, "end": receipt.end.value, "gas": receipt.gas}
    call |= {"pc": f"{receipt.pc:08x}", "output": receipt.output.hex()}
    if has_registers:
        call["registers"] = [f"{register:08x}" for register in receipt.registers]
    return call | {"writes": [object_of_write(key, change) for key, change in receipt.changes.items()]}


def object_of_write(key: Key, change: Change) -> Object:
    if isinstance(change, Removed):
        return {"key": key.hex(), "gone": True}
    if isinstance(change, Added):
        return {"key": key.hex(), "add": str(change.amount)}  # a text, since it may be above 2**53
    return {"key": key.hex(), "value": change.value.hex()}
