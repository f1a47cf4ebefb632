"""Tests of pay.py beside a server that answers as each test says: /usr/bin/python3 -m unittest, in this folder."""

import json
import subprocess
import sys
import tempfile
import threading
import unittest
from http.server import BaseHTTPRequestHandler, HTTPServer
from pathlib import Path

PAY = Path(__file__).resolve().with_name("pay.py")
BOB, CAROL = "0b" * 20, "0c" * 20
RECEIPT = b'{"end": "returned"}'
NO_NODE = "the answer is not one of a node"


class Server(HTTPServer):
    """Answers each GET with `account`, and each POST with the next of `answers`; if there is none it hangs up."""

    def __init__(self, kept: Path) -> None:
        super().__init__(("127.0.0.1", 0), Handler)
        self.account: tuple[int, bytes] = (200, json.dumps({"ledger": "07" * 32, "next": 0, "coins": None}).encode())
        self.answers: list[tuple[int, bytes]] = []
        self.posted: list[bytes] = []
        self.kept, self.found = kept, list[bytes]()  # what the file of the call has when it comes
        threading.Thread(target=self.serve_forever, daemon=True).start()

    def stop(self) -> None:
        self.shutdown()
        self.server_close()


class Handler(BaseHTTPRequestHandler):
    server: Server

    def do_GET(self) -> None:
        self.send(*self.server.account)

    def do_POST(self) -> None:
        self.server.posted.append(self.rfile.read(int(self.headers["Content-Length"])))
        self.server.found.append(self.server.kept.read_bytes() if self.server.kept.exists() else b"")
        if self.server.answers:
            self.send(*self.server.answers.pop(0))

    def send(self, status: int, body: bytes) -> None:
        self.send_response(status)
        self.end_headers()
        self.wfile.write(body)

    def log_message(self, format: str, *values: object) -> None:
        """Prints nothing."""


class Payments(unittest.TestCase):
    def setUp(self) -> None:
        place = tempfile.TemporaryDirectory()
        self.addCleanup(place.cleanup)
        self.key = Path(place.name) / "key"
        self.kept = Path(place.name) / "key.call"
        self.server = Server(self.kept)
        self.addCleanup(self.server.stop)
        self.address = f"http://127.0.0.1:{self.server.server_port}"

    def pay(self, to: str, amount: str) -> tuple[int, str, str]:
        """The status of a start, and what it prints on both streams."""
        words = [sys.executable, str(PAY), str(self.key), to, amount, "--port", str(self.server.server_port)]
        done = subprocess.run(words, capture_output=True, encoding="utf-8", timeout=60, check=False)
        return done.returncode, done.stdout, done.stderr

    def test_a_lost_answer(self) -> None:
        """The node took the call, and the next number is 1. The call is sent again. The next payment is another."""
        again = f"; the next start sends {self.kept} again\n"
        lost = f"pay: {self.address}: Remote end closed connection without response{again}"
        self.assertEqual(self.pay(BOB, "30"), (1, "", lost))
        self.server.account = (200, self.server.account[1].replace(b'"next": 0', b'"next": 1'))
        self.server.answers = [(503, b'{"error": "no engine"}'), (200, b"{}"), (200, RECEIPT), (200, RECEIPT)]
        self.assertEqual(self.pay(BOB, "30"), (1, "", f"pay: {self.address}: 503: no engine{again}"))
        self.assertEqual(self.pay(BOB, "30"), (1, "", f"pay: {self.address}: {NO_NODE}{again}"))
        self.assertEqual(self.pay(BOB, "30"), (0, RECEIPT.decode() + "\n", ""))
        self.assertFalse(self.kept.exists())
        self.assertEqual(self.server.posted, [self.server.posted[0]] * 4)
        self.assertEqual(self.pay(BOB, "30")[0], 0)
        self.assertEqual(json.loads(self.server.posted[4])["number"], 1)
        self.assertEqual(self.server.found, self.server.posted, "a call is kept before it is sent")

    def test_a_number_that_is_used(self) -> None:
        """Of a call that was sent before it says that this one ran: that is no failure. A new one has not run."""
        self.pay(BOB, "30")
        self.server.answers = [(409, b'{"error": "the number is 1"}')] * 2
        used = f"{self.address}: 409: the number is 1\n"
        lost = f"pay: the call of {self.kept} was sent before, and its receipt is lost: {used}"
        self.assertEqual((self.pay(BOB, "30"), self.kept.exists()), ((0, "", lost), False))
        self.assertEqual((self.pay(BOB, "30"), self.kept.exists()), ((1, "", f"pay: {used}"), False))

    def test_another_payment(self) -> None:
        """It comes after the one that has no answer."""
        self.pay(BOB, "30")
        self.server.answers = [(200, RECEIPT), (200, RECEIPT)]
        self.assertEqual(self.pay(CAROL, "5"), (0, (RECEIPT.decode() + "\n") * 2, ""))
        inputs = [json.loads(body)["input"] for body in self.server.posted]
        self.assertEqual(inputs, [BOB + "1e" + "00" * 7] * 2 + [CAROL + "05" + "00" * 7])

    def test_wrong_words(self) -> None:
        """Each is one line. No key is made, and nothing is sent."""
        for amount in ("-5", str(1 << 64), "1_0", "\u0661", "+5", ""):
            with self.subTest(amount):
                line = f"pay: {ascii(amount)[1:-1]}: an amount is a number of 0 to 18446744073709551615\n"
                self.assertEqual(self.pay(BOB, amount), (2, "", line))
        for to in ("0b" * 19, "0B" * 20):
            with self.subTest(to):
                line = f"pay: {to}: an account has 40 digits, 0 to 9 and a to f\n"
                self.assertEqual(self.pay(to, "5"), (2, "", line))
        self.assertEqual((self.key.exists(), self.server.posted), (False, []))
        self.server.answers = [(200, RECEIPT)] * 2
        for amount in ("0", str((1 << 64) - 1)):
            self.assertEqual(self.pay(BOB, amount)[0], 0)

    def test_messages(self) -> None:
        """Each names the address. What a node says reaches the terminal without its escape sequences."""
        for account, text in (
            ((200, b"7"), NO_NODE), ((200, b"[" * 9000), NO_NODE), ((200, b'{"ledger": "07", "next": 0}'), NO_NODE),
            ((200, b'{"ledger": "%s", "next": "0"}' % (b"07" * 32)), NO_NODE), ((503, b"{}"), NO_NODE),
            ((503, rb'{"error": "a\u001b[2J\nb"}'), r"503: a\x1b[2J\nb"),
        ):
            self.server.account = account
            with self.subTest(account[1][:40]):
                self.assertEqual(self.pay(BOB, "5"), (1, "", f"pay: {self.address}: {text}\n"))
        self.server.stop()
        self.assertEqual(self.pay(BOB, "5"), (1, "", f"pay: {self.address}: Connection refused\n"))


if __name__ == "__main__":
    unittest.main()
