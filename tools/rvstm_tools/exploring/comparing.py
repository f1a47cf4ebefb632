"""Bytes as expressions and models see them. To compare them with a text is an error, not a silent False."""

from typing import SupportsIndex, overload

from rvstm_tools.errors import UserError
from rvstm_tools.texts import keys, views, words


class MistakeError(UserError):
    """A mistake of the author of a description or of a model. It ends the search."""


class Data(bytes):
    """Bytes that are compared with other bytes. To compare them with a text is a mistake."""

    def __eq__(self, other: object) -> bool:
        return bytes.__eq__(self, self.bytes_of(other) if isinstance(other, str) else other)

    def __ne__(self, other: object) -> bool:
        return not self == other

    def __hash__(self) -> int:
        return bytes.__hash__(self)

    @overload
    def __getitem__(self, place: SupportsIndex) -> int: ...
    @overload
    def __getitem__(self, place: slice) -> "Data": ...
    def __getitem__(self, place: SupportsIndex | slice) -> "int | Data":
        found = bytes.__getitem__(self, place)
        return found if isinstance(found, int) else Data(found)

    def bytes_of(self, text: str) -> bytes:
        """The bytes that a text says of what this is."""
        raise MistakeError(f"{len(self)} bytes are compared with the text {text!r}, which they never equal")


class Name(Data):
    """An account or a key. It equals the words that say it: `alice`, `account:alice`, or its bytes in hex. As a text it is its name or
    this hex, and a set or a dict of such texts has it."""

    def __format__(self, _: str) -> str:
        return views.text_of(self) or self.hex()

    def __hash__(self) -> int:
        return hash(f"{self}")

    __eq__ = Data.__eq__  # which would be lost beside another hash

    def bytes_of(self, text: str) -> bytes:
        """The bytes that a text says. A MistakeError if it says none, or more or fewer than this has."""
        is_key = len(self) == keys.KEY_LENGTH
        what = "key" if is_key else "account"
        try:
            if words.is_hex(text) and len(text) == 2 * len(self):
                return bytes.fromhex(text)
            data = words.bytes_of(text if ":" in text else f"{what}:{text}")
            data = keys.key_of(data, text) if is_key else data
        except UserError as error:
            raise MistakeError(f"the {what} is compared with {text!r}: {error}") from error
        if len(data) != len(self):
            raise MistakeError(f"the {what} is compared with {text!r}, which has {len(data)} bytes in place of {len(self)}")
        return data
