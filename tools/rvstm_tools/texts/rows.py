"""Keys of tables without a hash: the table's name, and the row of it.

A key has the name of its table in bytes 0 to 3, filled up with zeros, and the row from byte 4 on. The rows of a table all have
28 bytes, or they all have at most 27: then byte 31 has the length, and zeros are between the row and it. So no two rows of the
tables of a contract have one key.
"""

import re
from dataclasses import dataclass

from rvstm_tools.texts.keys import KEY_LENGTH, Key

NAME_LENGTH = 4
LONG_ROW = KEY_LENGTH - NAME_LENGTH  # the length of each row of a table whose keys do not have it
LONGEST_SHORT_ROW = LONG_ROW - 1
TABLE = re.compile("[A-Za-z]{1,4}")
NAME_OF_KEY = re.compile(rb"([A-Za-z]{1,4})\0*")


@dataclass(frozen=True)
class Row:
    """A row of a table: the table's name, and the row's bytes, at most `LONG_ROW`."""

    table: str
    data: bytes

    @property
    def is_long(self) -> bool:
        """Whether its key has no length, since all rows of its table have `LONG_ROW` bytes."""
        return len(self.data) == LONG_ROW

    @property
    def key(self) -> Key:
        end = b"" if self.is_long else bytes(LONGEST_SHORT_ROW - len(self.data)) + bytes([len(self.data)])
        return Key(self.table.encode().ljust(NAME_LENGTH, b"\0") + self.data + end)


def row_of(key: Key, long_tables: frozenset[str] = frozenset()) -> Row | None:
    """The row that a key is one of; None if it is none.

    A key is one of a row if its first four bytes are 1 to 4 letters of ASCII and then zeros, and either a list says that this
    table has rows of 28 bytes, or its last byte is a length of 1 to 27 and all bytes between the row and it are zeros. A key with
    a length of 0 is a text, as in `key:bob`, and none of a row. So `row_of(key).key` is the key.
    """
    name = NAME_OF_KEY.fullmatch(key[:NAME_LENGTH])
    if not name:
        return None
    table, data, length = name[1].decode(), key[NAME_LENGTH:], key[-1]
    if table in long_tables:
        return Row(table, data)
    if 0 < length <= LONGEST_SHORT_ROW and not any(data[length:-1]):
        return Row(table, data[:length])
    return None
