"""Bytes, keys and changes for people."""

from rvstm_tools.texts.keys import Key
from rvstm_tools.texts.results import Added, Change, Written
from rvstm_tools.texts.words import NUMBER_SIZES


def is_printable(data: bytes) -> bool:
    """Whether all bytes are printable ones of ASCII, blanks among them."""
    return all(0x20 <= byte < 0x7F for byte in data)


def is_name(data: bytes) -> bool:
    """Whether bytes can be in quotes as a name: printable, without blanks and quotes."""
    return all(0x21 <= byte < 0x7F and byte != ord('"') for byte in data)


def shown_bytes(data: bytes) -> str:
    """Bytes as a text, if they may be one, in hex, and as a number, if they may be one."""
    if not data:
        return "-"
    words = [f'"{data.decode()}"'] if is_printable(data) else []
    words.append(data.hex())
    if len(data) in NUMBER_SIZES:
        words.append(str(int.from_bytes(data, "little")))
    return "  ".join(words)


def shown_change(change: Change) -> str:
    """What a call did to a key: the value, `gone`, or the amount with its sign."""
    if isinstance(change, Written):
        return shown_bytes(change.value)
    return f"+{change.amount}" if isinstance(change, Added) else "gone"


def shown_key(key: Key) -> str:
    """A key without the zeros at its end, as a text or in hex."""
    data = key.rstrip(b"\0")
    return f'"{data.decode()}"' if data and is_name(data) else data.hex() or "00"
