"""Expectations: what the lines `expect` of a list want of a call's receipt, or of the storage after the block."""

from collections.abc import Callable, Mapping
from dataclasses import dataclass
from typing import Protocol, TypeVar

from rvstm_tools.errors import UserError
from rvstm_tools.texts import blocks, differences, numbers, words
from rvstm_tools.texts.differences import Difference
from rvstm_tools.texts.keys import Key, Storage
from rvstm_tools.texts.results import ENDS_WITH_OUTPUT, TRAPS, Added, Change, End, Receipt, Removed, Written
from rvstm_tools.texts.views import View

LONGEST_OUTPUT = 256
LONGEST_VALUE = 256
MOST_WORKERS = 32
MOST_AMOUNT = 2**64 - 1
WRONG_ADD = "add: one amount follows it, and the line follows a call"
FORMS = "returned, reverted, out-of-gas, trapped, gas at most, same by, no other or a key"
NEXT_LINE = f"\n{'':16}"  # before each further change that an expectation shows

LineDifference = tuple[str, str]  # two lines that differ: the one of the run in order, and what came in its place


@dataclass(frozen=True)
class Scene:
    """What expectations know beside what they are compared with."""

    keys: frozenset[Key]  # that the lines of the same part name
    view: View  # what the list says of keys and values
    difference: Callable[[int], LineDifference | None]
    """Runs the block by so many workers, and returns where that differs from the run in order."""


Subject_contra = TypeVar("Subject_contra", contravariant=True)


class Expectation(Protocol[Subject_contra]):
    """What a line `expect` wants of its subject: of a `Receipt` after a call, of a `Storage` after `storage`."""

    def miss(self, subject: Subject_contra, scene: Scene) -> Difference | None:
        """What is wanted and what came; None if it is met."""


# ---- after a call


def end_text(end: End, output: str = "") -> str:
    """How a call ends, as a line `expect` says it, with its output as it is shown."""
    if end in TRAPS:
        return f"trapped {end}"
    return f"{end}  {output}" if end in ENDS_WITH_OUTPUT and output else end


def end_of_receipt(receipt: Receipt) -> str:
    return end_text(receipt.end, differences.short_bytes(receipt.output))


@dataclass(frozen=True)
class EndsBy:
    """The call ends so, and with this output if one is given."""

    end: End
    output: bytes | None = None

    def miss(self, receipt: Receipt, _: Scene) -> Difference | None:
        if receipt.end != self.end:
            wanted = "" if self.output is None else differences.short_bytes(self.output)
            return Difference(end_text(self.end, wanted), end_of_receipt(receipt))
        if self.output is None or self.output == receipt.output:
            return None
        found = differences.of_bytes(self.output, receipt.output)
        return Difference(end_text(self.end, found.wanted), end_text(receipt.end, found.came), found.place)


@dataclass(frozen=True)
class CostsAtMost:
    most: int

    def miss(self, receipt: Receipt, _: Scene) -> Difference | None:
        return Difference(f"gas at most {self.most}", f"gas {receipt.gas}") if receipt.gas > self.most else None


@dataclass(frozen=True)
class Changes:
    key: Key
    change: Change

    def miss(self, receipt: Receipt, scene: Scene) -> Difference | None:
        came = receipt.changes.get(self.key)
        if came is None:
            return Difference(scene.view.short_change(self.key, self.change), self._left_alone(receipt, scene))
        return scene.view.difference(self.key, self.change, came) if came != self.change else None

    def _left_alone(self, receipt: Receipt, scene: Scene) -> str:
        why = "" if receipt.end is End.RETURNED else f", since it ended {end_of_receipt(receipt)}"
        return f"the call leaves {scene.view.key(self.key)} as it was{why}"


@dataclass(frozen=True)
class ChangesNoOther:
    """Other lines after the call name each key that it writes, removes or adds to."""

    def miss(self, receipt: Receipt, scene: Scene) -> Difference | None:
        return difference_of_others("write", receipt.changes, scene)


# ---- after `storage`


@dataclass(frozen=True)
class Holds:
    key: Key
    value: bytes | None

    def miss(self, storage: Storage, scene: Scene) -> Difference | None:
        came = storage.get(self.key)
        return scene.view.difference(self.key, state_of(self.value), state_of(came)) if came != self.value else None


@dataclass(frozen=True)
class HoldsNoOther:
    """Other lines after `storage` name each key that the storage has."""

    def miss(self, storage: Storage, scene: Scene) -> Difference | None:
        return difference_of_others("key", {key: Written(value) for key, value in storage.items()}, scene)


def state_of(value: bytes | None) -> Change:
    """What a key of the storage has, as the change that shows it."""
    return Removed() if value is None else Written(value)


# ---- after both


@dataclass(frozen=True)
class SameByWorkers:
    workers: int

    def miss(self, _: object, scene: Scene) -> Difference | None:
        lines = scene.difference(self.workers)
        if lines is None:
            return None
        found = differences.of_lines(*lines)
        return Difference(f"`rvstm seq` prints  {found.wanted}", found.came, found.place)


def difference_of_others(what: str, changes: Mapping[Key, Change], scene: Scene) -> Difference | None:
    """What is reported of the keys that no line of the part names."""
    others = [f"{scene.view.key(key)}: {scene.view.short_change(key, change)}" for key, change in changes.items() if key not in scene.keys]
    return Difference(f"no other {what}", NEXT_LINE.join(others)) if others else None


# ---- the words of a line

CallExpectation = EndsBy | CostsAtMost | Changes | ChangesNoOther | SameByWorkers
StorageExpectation = Holds | HoldsNoOther | SameByWorkers
OF_RECEIPTS = ("returned", "reverted", "out-of-gas", "trapped", "gas")


def of_call(given: list[str]) -> CallExpectation:
    if common := of_both(given):
        return common
    if given[:2] == ["no", "other"]:
        check_no_other(given, "write")
        return ChangesNoOther()
    if given[:3] == ["gas", "at", "most"] and len(given) == 4:
        return CostsAtMost(numbers.number_of(given[3], 0, blocks.MOST_GAS, "gas"))
    check_forms(given)
    return end_of(given) if given[0] in OF_RECEIPTS else Changes(*change_of(given))


def of_storage(given: list[str]) -> StorageExpectation:
    if common := of_both(given):
        return common
    if given[:2] == ["no", "other"]:
        check_no_other(given, "key")
        return HoldsNoOther()
    if given[0] in OF_RECEIPTS:
        raise UserError(f"{given[0]}: it follows a call, not `storage`")
    check_forms(given)
    key, rest = key_of(given)
    return Holds(key, value_of(rest))


def of_both(given: list[str]) -> SameByWorkers | None:
    """The expectation that may follow a call and `storage`; None if the words are of another."""
    if not given:
        raise UserError(f"expect: {FORMS} follows it")
    if given[:2] == ["same", "by"] and len(given) == 4 and given[3] in ("worker", "workers"):
        return SameByWorkers(numbers.number_of(given[2], 1, MOST_WORKERS, "the count of workers"))
    return None


def check_no_other(given: list[str], what: str) -> None:
    """Refuses `no other` with other words than the one that may be here."""
    if given[2:] != [what]:
        raise UserError(f"no other: here it is `no other {what}`")


def check_forms(given: list[str]) -> None:
    """Refuses what begins as `gas at most N` or `same by N workers`, and is neither."""
    if given[0] in ("gas", "same"):
        raise UserError(f"{given[0]}: it is `gas at most N` or `same by N workers`")


def end_of(given: list[str]) -> EndsBy:
    kind, *rest = given
    if kind in ENDS_WITH_OUTPUT:
        return EndsBy(End(kind), words.joined(rest, LONGEST_OUTPUT, "an output") if rest else None)
    if kind == "trapped":
        if len(rest) != 1 or rest[0] not in TRAPS:
            raise UserError(f"trapped: it is followed by one of {', '.join(TRAPS)}")
        return EndsBy(End(rest[0]))
    if rest:
        raise UserError(f"{rest[0]}: nothing follows out-of-gas")
    return EndsBy(End.OUT_OF_GAS)


def key_of(given: list[str]) -> tuple[Key, list[str]]:
    """The key that a line is about, and the words after it."""
    word, *rest = given
    if not (":" in word or words.is_text(word) or words.is_hex(word)):
        raise UserError(f"{word}: none of {FORMS}")
    key = words.key_of(word)
    if not rest:
        raise UserError(f"{word}: a value, `gone` or `add N` follows the key")
    return key, rest


def change_of(given: list[str]) -> tuple[Key, Change]:
    """The key, and what is wanted of it after a call."""
    key, rest = key_of(given)
    if rest[0] == "add":
        if len(rest) != 2:
            raise UserError(WRONG_ADD)
        return key, Added(numbers.number_of(rest[1], 0, MOST_AMOUNT, "an amount"))
    return key, state_of(value_of(rest))


def value_of(given: list[str]) -> bytes | None:
    """The value that is wanted of a key; None for `gone`."""
    if given == ["gone"]:
        return None
    if given[0] == "add":
        raise UserError(WRONG_ADD)
    return words.joined(given, LONGEST_VALUE, "a value")
