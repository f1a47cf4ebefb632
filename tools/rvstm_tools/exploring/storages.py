"""The storage of a sequence by its receipts, and the names by which expressions and models read it."""

import functools
import hashlib
from collections.abc import Callable, Iterator, Mapping
from types import SimpleNamespace

from rvstm_tools.exploring.comparing import Data, Name
from rvstm_tools.exploring.expressions import NUMBERS, Names
from rvstm_tools.texts import differences, keys, views, words
from rvstm_tools.texts.keys import Key, Storage
from rvstm_tools.texts.results import Added, Change, Removed
from rvstm_tools.texts.shapes import FieldKind, Misfit, Part
from rvstm_tools.texts.views import View

AMOUNTS = 2**64
NUMBER_LENGTH = 8  # bytes of a number that ADD changes


@functools.lru_cache(maxsize=1 << 14)
def bytes_of(word: str) -> bytes:
    """The bytes of a word of a list; none of an empty one."""
    return words.bytes_of(word) if word else b""


class OtherLengthError(ValueError):
    """A value is read as a number of another length, or does not fit its shape. A contract may have written it, so it is no mistake
    of the author."""


def changed_value(old: bytes | None, change: Change) -> bytes | None:
    """The value of a key after a change; None if it has none."""
    if isinstance(change, Removed):
        return None
    if isinstance(change, Added):
        number = number_of(old) if old and len(old) == NUMBER_LENGTH else 0
        return ((number + change.amount) % AMOUNTS).to_bytes(NUMBER_LENGTH, "little")
    return change.value


class Fields(SimpleNamespace):
    """The fields of a value. As a text they are as people see them."""

    def __str__(self) -> str:
        return ", ".join(f"{name} {shown_field(value)}" for name, value in vars(self).items())


def shown_field(value: object) -> str:
    """A field for people: bytes that are a name without their zeros."""
    if isinstance(value, list):
        return f"[{', '.join(map(shown_field, value))}]"
    if isinstance(value, str):
        return f'"{value}"'
    return views.shown_name(value) if isinstance(value, bytes) else str(value)


class StorageByReceipts:
    """The storage by the receipts, as it is and as it was before the last call."""

    def __init__(self, shapes: View) -> None:
        self.shapes = shapes
        self.data: Storage = {}
        self.changed: dict[Key, bytes | None] = {}  # what the keys had that the last call changed
        self.words: dict[Key, str] = {}  # the words by which keys are called
        self.key_of = functools.lru_cache(maxsize=1 << 14)(self.new_key)

    def new_key(self, word: str | bytes) -> Key:
        """The key of a word of a list, or of bytes. Its word is kept for people."""
        if not isinstance(word, str):
            return keys.key_of(bytes(word), repr(word))
        key = keys.key_of(bytes_of(word), word)
        self.words.setdefault(key, word)
        self.shapes.take_names([word])
        return key

    def begin(self, storage: Storage) -> None:
        self.data, self.changed = dict(storage), {}

    def take(self, changes: Mapping[Key, Change]) -> None:
        data, self.changed = self.data, {}
        for key, change in changes.items():
            old = self.changed[key] = data.get(key)
            new = changed_value(old, change)
            if new is None:
                data.pop(key, None)
            else:
                data[key] = new

    def keys(self) -> list[Key]:
        return sorted(self.data)

    def value(self, key: str | bytes) -> bytes | None:
        """None if the key has none."""
        return self.data.get(self.key_of(key))

    def value_before(self, key: str | bytes) -> bytes | None:
        """The value before the last call; None if there was none."""
        found = self.key_of(key)
        return self.changed[found] if found in self.changed else self.data.get(found)

    def view(self) -> SimpleNamespace:
        """What a model sees of it: `value`, `u8` to `u64`, `i8` to `i64`, `fields` and `keys`."""
        return SimpleNamespace(**self.readers_of(self.value), keys=self.keys)

    def before(self) -> Names:
        return self.readers_of(self.value_before)

    def readers_of(self, value: "Reader") -> Names:
        numbers = {kind: functools.partial(number_at, value, kind) for kind in NUMBERS}
        return {"value": functools.partial(data_at, value), "fields": functools.partial(self.fields_of, value), **numbers}

    def fields_of(self, value: "Reader", key: str | bytes) -> Fields | None:
        """The fields with names of the value at a key, by its shape; None if it has no value."""
        data = value(key)
        if data is None:
            return None
        shape = self.shapes.shape_at(self.key_of(key))
        if not shape:
            raise ValueError(f"{shown_word(key)} has no line `shape`")
        parts = shape.parts(data)
        if isinstance(parts, Misfit):
            raise OtherLengthError(f"the value at {shown_word(key)}: {parts.reason}")
        named: dict[str, object] = {part.field.name: value_of(part) for part in parts if part.field in shape.fields}
        named |= {field.name: [value_of(part) for part in parts if part.field is field] for field in shape.repeated}
        return Fields(**{name: value for name, value in named.items() if name})


Reader = Callable[[str | bytes], bytes | None]


def value_of(part: Part) -> int | str | Data:
    """A field: a number, a text, a name of a key or an account, or other bytes."""
    if part.field.kind in (FieldKind.UNSIGNED, FieldKind.SIGNED):
        return views.number_of(part)
    if part.field.kind is FieldKind.TEXT:
        return part.data.rstrip(b"\0").decode()
    return Name(part.data) if part.field.kind in (FieldKind.KEY, FieldKind.ACCOUNT) else Data(part.data)


def data_at(value: Reader, key: str | bytes) -> Data | None:
    data = value(key)
    return None if data is None else Data(data)


def number_at(value: Reader, kind: str, key: str | bytes) -> int:
    """The number of a kind, such as `u64`, at a key; 0 if it has none."""
    data, size = value(key), int(kind[1:]) // 8
    if data is not None and len(data) != size:
        raise OtherLengthError(f"the value at {shown_word(key)} has {len(data)} bytes and not {size}")
    return int.from_bytes(data or b"", "little", signed=kind.startswith("i"))


def shown_word(key: str | bytes) -> str:
    return key if isinstance(key, str) else key.hex()


def change_lines(name: str, old: object, new: object) -> Iterator[str]:
    """What a value was and what it is, if the two differ: for each key of two dicts, and for each field, with the others after it."""
    if isinstance(old, dict) and isinstance(new, dict):
        for key in dict.fromkeys([*old, *new]):
            yield from change_lines(f"{name}[{key!r}]", old.get(key), new.get(key))
    elif isinstance(old, Fields) and isinstance(new, Fields):
        same = Fields(**{field: value for field, value in vars(new).items() if vars(old).get(field) == value})
        for field, value in vars(new).items():
            lines = change_lines(f"{name}.{field}", vars(old).get(field), value)
            yield from (f"{line}  ({differences.cut(str(same))})" if vars(same) else line for line in lines)
    elif type(old) is not type(new) or old != new:
        yield f"{name}: {shown_value(old)} -> {shown_value(new)}"


def shown_value(value: object) -> str:
    """A value of an expression, for people: bytes that have no name in hex."""
    if isinstance(value, Name):
        return views.shown_name(value)
    return value.hex() if isinstance(value, bytes) else str(value)


def number_of(data: bytes) -> int:
    """A number without a sign, the lowest byte first."""
    return int.from_bytes(data, "little")


def digest_of(data: bytes) -> Data:
    return Data(hashlib.sha256(data).digest())
