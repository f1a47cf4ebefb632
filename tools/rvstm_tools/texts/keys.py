"""Keys of the storage: 32 bytes, and how a list names one; and accounts, which are the first 20 bytes of one."""

import hashlib
from typing import NewType

from rvstm_tools.errors import UserError
from rvstm_tools.texts import numbers

Key = NewType("Key", bytes)  # a key of the storage: exactly `KEY_LENGTH` bytes

Storage = dict[Key, bytes]

KEY_LENGTH = 32
ACCOUNT_LENGTH = 20
GREATEST_NUMBER = 255  # Of a key `key:N`. Another number is written in hex, since one may expect it in more than the last byte.


def key_of(data: bytes, word: str) -> Key:
    """The key of some bytes, with zeros after them. `word` is what the list has."""
    if len(data) > KEY_LENGTH:
        raise UserError(f"{word}: a key has at most {KEY_LENGTH} bytes, and this is {len(data)}")
    return Key(data.ljust(KEY_LENGTH, b"\0"))


def numbered_key(number: int) -> Key:
    """The key that ends with a number, the highest byte first."""
    return Key(number.to_bytes(KEY_LENGTH, "big"))


def named_key(word: str) -> Key:
    """The key of a word `key:TEXT` or `key:N`."""
    text = word.removeprefix("key:")
    if not text:
        raise UserError(f"{word}: no text follows it")
    if not numbers.is_decimal(text):
        return key_of(text.encode(), word)
    number = numbers.at_most(text, GREATEST_NUMBER)
    if number is None:
        raise UserError(f"{word}: the number of a key is at most {GREATEST_NUMBER}; another key is written in hex")
    return numbered_key(number)


def account_of(word: str, name: str) -> bytes:
    """The account of a name: its bytes, and zeros after them. `word` is what the list has.

    A name that is a number is refused: `key:N` has N in its last byte, which is none of an account."""
    data = name.encode()
    if not data:
        raise UserError(f"{word}: no name follows it")
    if numbers.is_decimal(name):
        raise UserError(f"{word}: an account has a name, and this is a number")
    if len(data) > ACCOUNT_LENGTH:
        raise UserError(f"{word}: an account has at most {ACCOUNT_LENGTH} bytes, and this is {len(data)}")
    return data.ljust(ACCOUNT_LENGTH, b"\0")


def table_key(word: str) -> Key:
    """The key of a word `table:TAG:TEXT` or `table:TAG:N`: what `table_key` of sdk/sha256.h derives of tag and key."""
    tag, _, text = word.removeprefix("table:").rpartition(":")
    if not tag or not text:
        raise UserError(f"{word}: a tag and a text follow it, as in table:TAG:text")
    return Key(hashlib.sha256(tag.encode() + named_key(f"key:{text}")).digest())
