"""The text of `rvstm conflicts`: which calls of a block wait for which, and at which keys (docs/formats.md)."""

import re
from collections.abc import Iterator
from dataclasses import dataclass, field

from rvstm_tools.errors import UserError
from rvstm_tools.texts.keys import Key

KEY = "([0-9a-f]{64})"
NUMBER = "([0-9]{1,10})"
SUM = "([0-9]{1,20})"
FORMS = (
    re.compile(f"(writers) {KEY}((?: [0-9]{{1,4}})+)"),
    re.compile(f"(wait) {NUMBER} {NUMBER} {KEY}"),
    re.compile(f"(call) {NUMBER} gas {NUMBER} path {SUM}"),
    re.compile(f"(key) {KEY} writers {NUMBER} waits {NUMBER}"),
    re.compile(f"(all) calls {NUMBER} gas {SUM} path {SUM}"),
)
SHOWN_OF_WRONG_LINE = 60  # letters


@dataclass(frozen=True)
class Wait:
    """A call that another one waits for, and the key at which it does."""

    writer: int
    key: Key


@dataclass(frozen=True)
class WaitingCall:
    gas: int
    path: int
    waits: list[Wait]


@dataclass(frozen=True)
class WaitedKey:
    """A key at which calls wait: how many calls change it, and how many waits there are."""

    key: Key
    writers: int
    waits: int


@dataclass
class Conflicts:
    calls: list[WaitingCall] = field(default_factory=list)
    keys: list[WaitedKey] = field(default_factory=list)
    gas: int = 0
    path: int = 0

    def waits(self) -> int:
        return sum(len(call.waits) for call in self.calls)


def conflicts_of(text: str) -> Conflicts:
    """What `rvstm conflicts` prints. A UserError names another line."""
    found, waits, writers = Conflicts(), list[Wait](), dict[str, list[int]]()
    for number, line in enumerate(text.splitlines(), 1):
        fields = next((match for form in FORMS if (match := form.fullmatch(line))), None)
        if fields is None:
            raise wrong(number, line)
        match fields.groups():
            case ("writers", key, numbers):
                writers[key] = list(map(int, numbers.split()))
            case ("wait", call, first, key):
                if key not in writers:
                    raise wrong(number, line)
                waits += waits_at(int(call), int(first), key, writers[key])
            case ("call", _, gas, path):
                found.calls.append(WaitingCall(int(gas), int(path), waits))
                waits = []
            case ("key", key, count, waiting):
                found.keys.append(WaitedKey(Key(bytes.fromhex(key)), int(count), int(waiting)))
            case (_, _, gas, path):
                found.gas, found.path = int(gas), int(path)
                return found
    raise UserError("`rvstm conflicts` printed no line `all`")


def wrong(number: int, line: str) -> UserError:
    return UserError(f"line {number} of the conflicts is not one of theirs: {line[:SHOWN_OF_WRONG_LINE]}")


def waits_at(call: int, first: int, key: str, writers: list[int]) -> Iterator[Wait]:
    """The waits of a call at a key: each of its writers from the first on and below the call, the nearest first."""
    return (Wait(writer, Key(bytes.fromhex(key))) for writer in reversed(writers) if first <= writer < call)
