"""The words of a line of a list, and the bytes that they say."""

import re
from collections.abc import Iterable

from rvstm_tools.errors import UserError
from rvstm_tools.texts import keys, numbers, rows
from rvstm_tools.texts.rows import Row

WORD = re.compile(r'\s*("[^"]*"|[^\s"#][^\s"]*)(?!\S)')
HEX = re.compile("(?:[0-9a-fA-F]{2})+")
NUMBER = re.compile("u(8|16|32|64):([0-9]+)|i(8|16|32|64):(-?)([0-9]+)")
ROW = re.compile("row:([^:]*):(.+)")
TEXT_IN_ROW = re.compile(rb'(?![0-9]+$)[!-~]+')
NOT_IN_TEXT = frozenset(b'",:')
FORMS = (
    'not bytes in hex, "text", u8:N .. u64:N, i8:N .. i64:N, key:text, key:N, account:name, row:TABLE:name, table:TAG:text '
    "or hex:BYTES"
)
NUMBER_SIZES = (1, 2, 4, 8)  # how many bytes a number may have


def words_of(line: str) -> list[str]:
    """The words of a line, without its comment. A text in quotes is one word, with its quotes."""
    words = []
    place = 0
    while word := WORD.match(line, place):
        words.append(word[1])
        place = word.end()
    rest = line[place:].split(maxsplit=1)
    if rest and not rest[0].startswith("#"):
        raise UserError(f"{rest[0]}: a text has a quote at each end, and a blank before and after it")
    return words


def is_text(word: str) -> bool:
    return word.startswith('"')


def is_hex(word: str) -> bool:
    return HEX.fullmatch(word) is not None


def bytes_of(word: str) -> bytes:
    """The bytes that a word says. A UserError says which words there are."""
    if is_text(word):
        return word[1:-1].encode()
    if number := NUMBER.fullmatch(word):
        return bytes_of_number(word, number)
    kind, _, rest = word.partition(":")
    match kind:
        case "key":
            return keys.named_key(word)
        case "account":
            return keys.account_of(word, rest)
        case "row":
            return row_of(word).key
        case "table":
            return keys.table_key(word)
    digits = rest if kind == "hex" else word
    if not is_hex(digits):
        raise UserError(f"{word}: {FORMS}")
    return bytes.fromhex(digits)


def bytes_of_number(word: str, found: re.Match[str]) -> bytes:
    """The bytes of a number, the lowest first. A UserError if its bits do not hold it."""
    of_unsigned, unsigned, of_signed, sign, signed = found.groups()
    bits = int(of_unsigned or of_signed)
    most = 2**bits - 1 if of_unsigned else 2 ** (bits - 1) - (0 if sign else 1)
    number = numbers.at_most(unsigned or signed, most)
    if number is None:
        least = f"of {-(2 ** (bits - 1))} to {2 ** (bits - 1) - 1}" if of_signed else f"at most {most}"
        raise UserError(f"{word}: a number of {bits} bits {'with a sign ' if of_signed else ''}is {least}")
    return (-number if sign else number).to_bytes(bits // 8, "little", signed=bool(of_signed))


def row_of(word: str) -> Row:
    """The row of a word `row:TABLE:PART,PART..`. A part is a text without a colon, or a word of an input; `key:alice` is an account
    there."""
    found = ROW.fullmatch(word)
    if not found:
        raise UserError(f"{word}: a table and a row follow it, as in row:TABLE:name or row:TABLE:key:alice,u64:7")
    table, text = found.groups()
    if not rows.TABLE.fullmatch(table):
        raise UserError(f"{word}: the name of a table has 1 to 4 letters, a to z or A to Z")
    data = b""
    for part in text.split(","):
        data += bytes_in_row(word, part)
        if len(data) > rows.LONG_ROW:
            raise UserError(f"{word}: with {part} the row has {len(data)} bytes; it has at most {rows.LONG_ROW}")
    return Row(table, data)


def bytes_in_row(word: str, part: str) -> bytes:
    """The bytes of a part of a row. A UserError if it is empty or no such word."""
    if not part:
        raise UserError(f"{word}: a part of the row is empty")
    if part.startswith("key:"):
        return keys.account_of(part, part.removeprefix("key:"))
    if ":" in part:
        return bytes_of(part)
    if numbers.is_decimal(part):
        raise UserError(f"{word}: a number in a row has a size, as in u64:{part}; the text of these digits is hex:{part.encode().hex()}")
    return part.encode()


def word_of_row(row: Row) -> str:
    """A word that says a row: by a text, an account and a number, a number, or bytes in hex."""
    account, rest = row.data[: keys.ACCOUNT_LENGTH], row.data[keys.ACCOUNT_LENGTH :]
    name = account.rstrip(b"\0")
    if is_text_in_row(row.data):
        text = row.data.decode()
    elif len(account) == keys.ACCOUNT_LENGTH and is_text_in_row(name) and len(rest) in (0, *NUMBER_SIZES):
        text = f"key:{name.decode()}" + (f",{word_of_number(rest)}" if rest else "")
    else:
        text = word_of_number(row.data) if len(row.data) in NUMBER_SIZES else f"hex:{row.data.hex()}"
    return f"row:{row.table}:{text}"


def is_text_in_row(data: bytes) -> bool:
    """Whether bytes can be a part of a row by their text: printable, no number, no blanks, quotes, commas, colons."""
    return TEXT_IN_ROW.fullmatch(data) is not None and NOT_IN_TEXT.isdisjoint(data)


def word_of_number(data: bytes) -> str:
    return f"u{8 * len(data)}:{int.from_bytes(data, 'little')}"


def word_of(data: bytes) -> str:
    """A word that says some bytes: a number of 4 or 8 bytes, a text, or hex."""
    if not data:
        return '""'
    if len(data) in (4, 8):
        return word_of_number(data)
    is_plain = all(0x20 <= byte < 0x7F and byte != ord('"') for byte in data)
    return f'"{data.decode()}"' if is_plain else data.hex()


def joined(words: Iterable[str], most: int, what: str) -> bytes:
    """The bytes of some words, one after the other. `what` is what the message calls them."""
    words = list(words)
    data = b"".join(map(bytes_of, words))
    if len(data) > most:
        raise UserError(f"{words[0]}: {what} has at most {most} bytes, and this is {len(data)}")
    return data


def key_of(word: str) -> keys.Key:
    """The key that a word says, with zeros after its bytes."""
    return keys.key_of(bytes_of(word), word)


def name_of(word: str) -> str:
    if is_text(word):
        raise UserError(f"{word}: a name has no quotes")
    if "\0" in word:
        raise UserError(f"{word}: a name has no zero byte")
    return word
