"""What `rvstm conflicts` has to print of a block, by its receipts and the keys that each call reads, and not by `rvstm conflicts`.

A read waits for the nearest earlier call that wrote or removed the key, and for all that added to it after that call.
"""

from collections import Counter
from collections.abc import Iterable, Iterator, Sequence
from typing import NamedTuple

from rvstm_developers import texts
from rvstm_tools.texts.keys import Key
from rvstm_tools.texts.results import Added, Receipt


class KeyWait(NamedTuple):
    writer: int
    key: Key


def writers_of(receipts: Sequence[Receipt], key: Key, reader: int) -> Iterator[int]:
    """The calls that a read of a key waits for, the nearest first."""
    for receipt in reversed(receipts[:reader]):
        change = receipt.changes.get(key)
        if change is not None:
            yield receipt.number
            if not isinstance(change, Added):
                return


def text_of_reads(receipts: Sequence[Receipt], keys_of_calls: Iterable[set[Key]]) -> str:
    calls: list[str] = []
    paths: list[int] = []
    counts: Counter[Key] = Counter()
    for receipt, keys in zip(receipts, keys_of_calls):
        waits = [KeyWait(writer, key) for key in sorted(keys) for writer in writers_of(receipts, key, receipt.number)]
        paths.append(receipt.gas + max((paths[wait.writer] for wait in waits), default=0))
        earliest: dict[Key, int] = {}
        for wait in waits:
            earliest[wait.key] = min(wait.writer, earliest.get(wait.key, wait.writer))
            counts[wait.key] += 1
        calls += [f"wait {receipt.number} {earliest[key]} {key.hex()}" for key in sorted(earliest)]
        calls.append(f"call {receipt.number} gas {receipt.gas} path {paths[-1]}")
    heads, totals = [], []
    for key in sorted(counts):
        writers = [str(receipt.number) for receipt in receipts if key in receipt.changes]
        heads.append(f"writers {key.hex()} {' '.join(writers)}")
        totals.append(f"key {key.hex()} writers {len(writers)} waits {counts[key]}")
    gas = sum(receipt.gas for receipt in receipts)
    total = f"all calls {len(receipts)} gas {gas} path {max(paths, default=0)}"
    return texts.lines_of([*heads, *calls, *totals, total])
