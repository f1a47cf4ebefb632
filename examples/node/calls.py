"""Signed calls: what a sender signs, the object of JSON that it sends, and what is refused of it."""

import hashlib
import json
import sys
from dataclasses import dataclass
from pathlib import Path

from cryptography.exceptions import InvalidSignature
from cryptography.hazmat.primitives.asymmetric.ed25519 import Ed25519PublicKey

sys.path.append(str(Path(__file__).resolve().parents[2] / "tools"))
from rvstm_tools.texts.blocks import LONGEST_INPUT
from rvstm_tools.texts.keys import ACCOUNT_LENGTH

MOST_GAS = 1_000_000  # of a call
LONGEST = LONGEST_INPUT - ACCOUNT_LENGTH  # bytes of an input; the node puts the account before it
SIGN_OF_X = 0x80  # in the last byte of a public key; all other bits are y, the lowest byte first
SMALL_ORDER = frozenset(map(bytes.fromhex, (
    "0100000000000000000000000000000000000000000000000000000000000000",  # y = 1, order 1
    "ecffffffffffffffffffffffffffffffffffffffffffffffffffffffffffff7f",  # y = p - 1, order 2; p is 2^255 - 19
    "0000000000000000000000000000000000000000000000000000000000000000",  # y = 0, order 4
    "c7176a703d4dd84fba3c0b760d10670f2a2053fa2c39ccc64ec7fd7792ac037a",  # order 8
    "26e8958fc2b227b045c3f489f2ef98f0d5dfac05d3c63339b13802886d53fc05",  # order 8: p less the y above
    "edffffffffffffffffffffffffffffffffffffffffffffffffffffffffffff7f",  # p in place of y = 0
    "eeffffffffffffffffffffffffffffffffffffffffffffffffffffffffffff7f",  # p + 1 in place of y = 1
)))
"""Each y of a point of small order, as keys may have it. One signature is valid for all its calls, or for one in 8."""
FIELDS = {"key": str, "number": int, "gas": int, "input": str, "signature": str}


class RefusedError(Exception):
    """Why a request is refused: a status of HTTP, and a text."""

    def __init__(self, status: int, text: str) -> None:
        super().__init__(text)
        self.status = status


def printable(text: str) -> str:
    """A text for a terminal: all but printable ASCII is escaped."""
    return ascii(text)[1:-1]


def account_of(key: bytes) -> bytes:
    """The account of a public key: the first 20 bytes of its SHA-256."""
    return hashlib.sha256(key).digest()[:ACCOUNT_LENGTH]


def has_small_order(key: bytes) -> bool:
    """Whether everybody can sign for a public key."""
    return key[:-1] + bytes(byte & ~SIGN_OF_X for byte in key[-1:]) in SMALL_ORDER


@dataclass(frozen=True)
class SignedCall:
    """A call that somebody signed: the public key, the number of the call, the most gas, the input, the signature."""

    key: bytes
    number: int
    gas: int
    input: bytes
    signature: bytes

    @property
    def account(self) -> bytes:
        """Who signed."""
        return account_of(self.key)

    def check(self, ledger: bytes, program: str) -> None:
        """Refuses a call that its key did not sign for this ledger."""
        if has_small_order(self.key):
            raise RefusedError(403, "the point of the key has small order, so everybody can sign")
        signed = message(ledger, program, self.number, self.gas, self.input)
        try:
            Ed25519PublicKey.from_public_bytes(self.key).verify(self.signature, signed)
        except (InvalidSignature, ValueError):  # ValueError: the key has not 32 bytes
            raise RefusedError(403, "the signature is not that of the key") from None


def message(ledger: bytes, program: str, number: int, gas: int, data: bytes) -> bytes:
    """What is signed. It names the ledger and the program, so that no other takes the call."""
    return f"rvstm call\n{ledger.hex()}\n{program}\n{number}\n{gas}\n{data.hex()}\n".encode()


def call_of(body: bytes) -> SignedCall:
    try:
        given = json.loads(body)
        values = [given[name] for name in FIELDS]
        if [type(value) for value in values] != list(FIELDS.values()) or len(given) != len(FIELDS):
            raise ValueError
        key, number, gas, data, signature = values
        call = SignedCall(bytes.fromhex(key), number, gas, bytes.fromhex(data), bytes.fromhex(signature))
    except (ValueError, LookupError, TypeError, RecursionError):
        raise RefusedError(400, f"a call is an object with {', '.join(FIELDS)}: two numbers, and texts in hex") from None
    if not 0 < call.gas <= MOST_GAS or not 0 <= call.number < 1 << 64 or len(call.input) > LONGEST:
        raise RefusedError(400, f"gas is 1 to {MOST_GAS}, a number has 64 bits, and an input has at most {LONGEST} bytes")
    return call
