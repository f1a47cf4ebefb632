"""Which calls of a block wait for which, by what `rvstm seq` and `rvstm debug` show of each call and not by `rvstm conflicts`.

The receipts say what each call changed. A replay of each call shows its storage calls, and so the keys that it read if its own writes
do not answer. A read waits for the nearest earlier call that wrote or removed the key, and for all that added to it after that call.
"""

from collections.abc import Iterator, Sequence
from pathlib import Path

from gate.runner import same
from rvstm_developers.models import waits
from rvstm_tools.debugging.charges import StorageCall
from rvstm_tools.debugging.replays import StorageReplay, StorageStep
from rvstm_tools.debugging.sessions import CallOf
from rvstm_tools.programs.running import Program
from rvstm_tools.texts import results
from rvstm_tools.texts.keys import Key
from rvstm_tools.texts.results import End, Receipt

READ_BASE = 200
"""The gas of a READ before it asks."""


def is_asked(call: StorageStep, is_last: bool, receipt: Receipt, limit: int) -> bool:
    """Whether the storage is asked for the key of a READ: not if the call ends before, by a fault or for gas."""
    if not is_last or receipt.end is End.RETURNED:
        return True
    return receipt.end is End.OUT_OF_GAS and limit - call.gas >= READ_BASE


def keys_read(replay: StorageReplay, receipt: Receipt, limit: int) -> set[Key]:
    """The keys that a call reads if its own writes do not answer."""
    keys: set[Key] = set()
    known: set[Key] = set()
    """Of these the call itself knows the value."""
    for place, call in enumerate(replay.storage_calls, 1):
        key = call.key
        if key is None:  # the call ends here
            continue
        is_last = place == len(replay.storage_calls) and replay.last.text == "ecall"
        if call.number == StorageCall.READ and key not in known:
            if is_asked(call, is_last, receipt, limit):
                keys.add(key)
        elif call.number in (StorageCall.WRITE, StorageCall.REMOVE):
            known.add(key)
    return keys


def keys_read_of(program: Path, path: Path, receipts: Sequence[Receipt]) -> Iterator[set[Key]]:
    """The keys that each call of a block reads, as its replay shows them."""
    rows = [line.split() for line in path.read_text(encoding="ascii").splitlines()]
    rules = next((int(row[1]) for row in rows if row[:1] == ["gas"]), 1)
    limits = [int(row[2]) for row in rows if row[:1] == ["call"]]
    for receipt, limit in zip(receipts, limits, strict=True):
        yield keys_read(StorageReplay(CallOf(program, path.name, receipt.number, path.parent), rules), receipt, limit)


def check(program: Path, path: Path) -> None:
    """`conflicts` prints of a block what the model does; if `seq` refuses a block, it does so in the same words."""
    runner = Program(program)
    whole, printed = (runner.run([command, path.name], path.parent) for command in ("seq", "conflicts"))
    same(printed.refusal, whole.refusal, f"{path}")
    receipts = [] if whole.refusal else results.result_of(whole.text).receipts
    wanted = "" if whole.refusal else waits.text_of_reads(receipts, keys_read_of(program, path, receipts))
    same(printed.text, wanted, f"{path}")
