#!/usr/bin/python3
"""Signs a payment, sends it to a node, and prints its receipt. KEY is the file of a private key; a new one is made if none is there.

The signed call is in KEY.call until its receipt comes. If the answer is lost, start again: the same call is sent.
With --account it prints the account of KEY, and sends nothing.
"""

import argparse
import fcntl
import http.client
import json
import os
import re
import sys
from http import HTTPStatus
from pathlib import Path

from cryptography.hazmat.primitives.asymmetric.ed25519 import Ed25519PrivateKey
from cryptography.hazmat.primitives.serialization import Encoding, NoEncryption, PrivateFormat, PublicFormat

import calls  # first: it finds tools/
from rvstm_tools import errors, options
from rvstm_tools.errors import UserError
from rvstm_tools.sessions import frames
from rvstm_tools.texts import numbers
from rvstm_tools.texts.objects import Object

PROGRAM = frames.name_of((Path(__file__).resolve().parent / "coins.elf").read_bytes())
GAS = 5_000
MOST_COINS = (1 << 64) - 1
ACCOUNT, LEDGER = re.compile("[0-9a-f]{40}"), re.compile("[0-9a-f]{64}")
NO_NODE = "the answer is not one of a node"


def public_of(private: Ed25519PrivateKey) -> bytes:
    """The public key, 32 bytes."""
    return private.public_key().public_bytes(Encoding.Raw, PublicFormat.Raw)


def key_in(path: Path) -> Ed25519PrivateKey:
    """The private key of a file, which is made if it is not there."""
    if not path.exists():
        made = Ed25519PrivateKey.generate().private_bytes(Encoding.Raw, PrivateFormat.Raw, NoEncryption())
        with open(os.open(path, os.O_WRONLY | os.O_CREAT | os.O_EXCL, 0o600), "wb") as file:
            file.write(made)
    data = path.read_bytes()
    if len(data) != 32:
        raise UserError(f"{path}: a private key has 32 bytes, and this is {len(data)}")
    return Ed25519PrivateKey.from_private_bytes(data)


def payment(to: str, amount: str) -> bytes:
    """The input of a call that pays."""
    if not ACCOUNT.fullmatch(to):
        raise UserError(f"{calls.printable(to)}: an account has 40 digits, 0 to 9 and a to f")
    coins = numbers.number_of(calls.printable(amount), 0, MOST_COINS, "an amount")
    return bytes.fromhex(to) + coins.to_bytes(8, "little")


def signed(private: Ed25519PrivateKey, ledger: bytes, program: str, number: int, data: bytes) -> Object:
    signature = private.sign(calls.message(ledger, program, number, GAS, data))
    return {"key": public_of(private).hex(), "number": number, "gas": GAS, "input": data.hex(), "signature": signature.hex()}


def sync_folder(path: Path) -> None:
    """Puts the names in the folder of a file on the disk."""
    folder = os.open(path.parent, os.O_RDONLY)
    os.fsync(folder)
    os.close(folder)


def keep(path: Path, call: Object) -> None:
    """Puts a call on the disk, in whole or not at all."""
    begun = path.with_name(f"{path.name}.new")
    with open(begun, "w", encoding="ascii") as file:
        json.dump(call, file)
        file.flush()
        os.fsync(file.fileno())
    begun.replace(path)
    sync_folder(path)


class Node:
    """A node on a port of the loopback address. Its texts are not trusted."""

    def __init__(self, port: int) -> None:
        self.port = port

    def wrong(self, text: object) -> UserError:
        return UserError(f"http://127.0.0.1:{self.port}: {calls.printable(str(text))}")

    def ask(self, method: str, path: str, wanted: str, body: bytes | None = None) -> tuple[int, Object]:
        """The status of an answer, and its object. It has the field `wanted`, or that of a refusal an `error`."""
        connection = http.client.HTTPConnection("127.0.0.1", self.port)
        try:
            connection.request(method, path, body)
            answer = connection.getresponse()
            found = json.loads(answer.read())
        except OSError as error:
            raise self.wrong(error.strerror or error) from error
        except (http.client.HTTPException, ValueError, RecursionError):
            found = None
        if not isinstance(found, dict) or (wanted if answer.status == HTTPStatus.OK else "error") not in found:
            raise self.wrong(NO_NODE)
        return answer.status, found

    def next_call(self, account: bytes) -> tuple[bytes, int]:
        """The name of the ledger, and the number of the next call of an account."""
        status, found = self.ask("GET", f"/accounts/{account.hex()}", "ledger")
        if status != HTTPStatus.OK:
            raise self.wrong(f"{status}: {found['error']}")
        name, number = found["ledger"], found.get("next")
        if not isinstance(name, str) or not LEDGER.fullmatch(name) or not isinstance(number, int):
            raise self.wrong(NO_NODE)
        return bytes.fromhex(name), number

    def send(self, kept: Path, *, is_again: bool) -> None:
        """Sends the call that is kept. The file goes after its receipt is printed, or if its number is used: then what
        was sent before has run."""
        status, found = self.ask("POST", "/calls", "end", kept.read_bytes())
        refusal = self.wrong(f"{status}: {found.get('error')}")
        if status == HTTPStatus.OK:
            print(json.dumps(found), flush=True)
        elif status != HTTPStatus.CONFLICT:
            raise refusal
        elif is_again:
            print(f"pay: the call of {kept} was sent before, and its receipt is lost: {refusal}", file=sys.stderr)
        kept.unlink()
        sync_folder(kept)
        if status == HTTPStatus.CONFLICT and not is_again:
            raise refusal


def pay(key: Path, kept: Path, node: Node, data: bytes) -> None:
    """Sends the call that an earlier start kept. If there is none, or it is another payment, sends this one."""
    private = key_in(key)
    with open(key, "rb") as file:
        fcntl.flock(file, fcntl.LOCK_EX)  # payments with one key come one after the other
        if kept.exists():
            call = calls.call_of(kept.read_bytes())
            node.send(kept, is_again=True)
            if call.input == data:
                return
        name, number = node.next_call(calls.account_of(public_of(private)))
        keep(kept, signed(private, name, PROGRAM, number, data))
        node.send(kept, is_again=False)


def main() -> int:
    parser = argparse.ArgumentParser(description=__doc__, formatter_class=argparse.RawDescriptionHelpFormatter)
    parser.add_argument("key", type=Path, metavar="KEY", help="the file of the payer's private key")
    parser.add_argument("to", nargs="?", metavar="TO", help="the account that is paid, 20 bytes in hex")
    parser.add_argument("amount", nargs="?", metavar="AMOUNT", help="how many coins")
    parser.add_argument("--account", action="store_true", help="prints the account of KEY")
    port = options.number(1, 65535)
    parser.add_argument("--port", type=port, default=8545, metavar="N", help="of the node on 127.0.0.1 (8545)")
    given = parser.parse_args()
    if given.account:
        print(calls.account_of(public_of(key_in(given.key))).hex())
        return 0
    if given.amount is None:
        parser.error("TO and AMOUNT, or --account")
    with errors.taken_for_misuse():
        data = payment(given.to, given.amount)
    kept = Path(f"{given.key}.call")
    try:
        pay(given.key, kept, Node(given.port), data)
    except (UserError, calls.RefusedError) as error:
        again = f"; the next start sends {kept} again" if kept.exists() else ""
        raise UserError(f"{error}{again}") from error
    return 0


if __name__ == "__main__":
    sys.exit(errors.ended("pay", main))
