#!/usr/bin/python3
"""A node: takes signed calls by HTTP on the loopback address, makes a block of them each second, runs it in a session of `rvstm
chain` that is kept in a file, and answers each sender with the receipt. README.md has the rest.

POST /calls            a call: {"key", "number", "gas", "input", "signature"}; answered when its block has run
GET /accounts/ACCOUNT  the name of the ledger, the number of the account's next call, and its coins
GET /                  a page that shows the last blocks
"""

import argparse
import contextlib
import io
import json
import socket
import sys
import threading
import time
from collections.abc import Callable
from http.server import BaseHTTPRequestHandler, ThreadingHTTPServer
from typing import TYPE_CHECKING

import calls  # first: it finds tools/
from calls import RefusedError
from ledger import Ledger
from rvstm_tools import errors, options
from rvstm_tools.programs import finding
from rvstm_tools.texts.keys import ACCOUNT_LENGTH
from rvstm_tools.texts.objects import Object

if TYPE_CHECKING:
    from _typeshed import WriteableBuffer

LONGEST_BODY, LONGEST_REQUEST = 10_000, 30_000  # bytes; an input of a call has at most 4,096
MOST_CONNECTIONS, BACKLOG = 500, 128  # a process often has at most 1,024 open files
SECONDS_OF_A_BLOCK, SECONDS_OF_A_REQUEST = 1.0, 5.0
HOSTS = ("127.0.0.1", "localhost")
BUSY = b'HTTP/1.0 503 Service Unavailable\r\nContent-Type: application/json\r\n\r\n{"error": "too many connections"}\n'


class Arriving(io.RawIOBase):
    """What arrives by a connection. A request has `SECONDS_OF_A_REQUEST` in all; what is longer than any is cut."""

    def __init__(self, connection: socket.socket) -> None:
        self.connection, self.left = connection, LONGEST_REQUEST
        self.end = time.monotonic() + SECONDS_OF_A_REQUEST

    def readable(self) -> bool:
        return True

    def readinto(self, buffer: "WriteableBuffer") -> int:
        seconds = self.end - time.monotonic()
        if seconds <= 0:
            raise TimeoutError
        self.connection.settimeout(seconds)
        count = self.connection.recv_into(memoryview(buffer)[: self.left])
        self.left -= count
        return count


class Server(ThreadingHTTPServer):
    """A server whose connections are bounded: each has a thread."""

    request_queue_size = BACKLOG

    def process_request(self, request: socket.socket | tuple[bytes, socket.socket], client_address: object) -> None:
        """Refuses a connection that is one too many."""
        assert isinstance(request, socket.socket)
        if threading.active_count() <= MOST_CONNECTIONS:
            super().process_request(request, client_address)
            return
        with contextlib.suppress(OSError):
            request.sendall(BUSY)
        self.shutdown_request(request)


class Handler(BaseHTTPRequestHandler):
    """A request of HTTP."""

    ledger: Ledger

    def setup(self) -> None:
        super().setup()
        self.rfile = io.BufferedReader(Arriving(self.connection))

    def handle(self) -> None:
        """A sender that hangs up is no mistake of this node."""
        with contextlib.suppress(ConnectionError):
            super().handle()

    def do_GET(self) -> None:
        """Answers the page, or what an account has."""
        account = self.path.removeprefix("/accounts/")
        if self.path == "/":
            self.send(200, "text/html; charset=utf-8", self.ledger.page().encode())
        elif len(account) == 2 * ACCOUNT_LENGTH and not set(account) - set("0123456789abcdef"):
            self.answer(lambda: self.ledger.account(bytes.fromhex(account)))
        else:
            self.send_object(404, {"error": "there is nothing here"})

    def do_POST(self) -> None:
        """Answers a call with its receipt."""
        self.answer(lambda: self.ledger.take(self.call()).result())

    def call(self) -> calls.SignedCall:
        """The call of the body. One that is too long is not read, nor one of a page of another origin in a browser."""
        hosts: list[str] = self.headers.get_all("Host", [])
        origins: list[str] = self.headers.get_all("Origin", [])
        if len(hosts) != 1 or hosts[0].partition(":")[0] not in HOSTS or origins not in ([], [f"http://{hosts[0]}"]):
            raise RefusedError(403, f"a call names {' or '.join(HOSTS)} as its Host, and no other Origin")
        length = self.headers.get("Content-Length", "")
        if self.path != "/calls" or not (length.isascii() and length.isdigit()):
            raise RefusedError(400, "calls are posted to /calls, with a Content-Length")
        if len(length) > 9 or int(length) > LONGEST_BODY:
            raise RefusedError(413, f"a call has at most {LONGEST_BODY} bytes")
        return calls.call_of(self.rfile.read(int(length)))

    def answer(self, found: Callable[[], Object]) -> None:
        try:
            self.send_object(200, found())
        except RefusedError as error:
            self.send_object(error.status, {"error": str(error)})

    def send_object(self, status: int, given: Object) -> None:
        self.send(status, "application/json", json.dumps(given).encode() + b"\n")

    def send(self, status: int, kind: str, body: bytes) -> None:
        self.connection.settimeout(SECONDS_OF_A_REQUEST)
        self.send_response(status)
        self.send_header("Content-Type", kind)
        self.send_header("Content-Length", str(len(body)))
        self.end_headers()
        self.wfile.write(body)

    def log_message(self, format: str, *values: object) -> None:
        """Prints nothing of each request."""


def main() -> int:
    """Runs the node until it is interrupted."""
    parser = argparse.ArgumentParser(description="A node that takes signed calls.")
    options.add_program(parser)
    parser.add_argument("--store", required=True, metavar="FILE", help="the file that the ledger is kept in")
    help_of_port = "the port of 127.0.0.1 on which it listens (8545); 0 is a free port"
    parser.add_argument("--port", type=options.number(0, 65535), default=8545, metavar="N", help=help_of_port)
    given = parser.parse_args()
    ledger = Ledger(finding.chosen(options.program_choice(given), "node"), given.store)
    Handler.ledger = ledger
    server = Server(("127.0.0.1", given.port), Handler)
    threading.Thread(target=server.serve_forever, daemon=True).start()
    print(f"http://127.0.0.1:{server.server_port}/ at height {ledger.session.height}", flush=True)
    while True:
        time.sleep(SECONDS_OF_A_BLOCK)
        with contextlib.suppress(RefusedError):
            ledger.turn()


if __name__ == "__main__":
    sys.exit(errors.ended("node", main))
