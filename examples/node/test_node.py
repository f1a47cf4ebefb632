"""Tests of the node over the program that RVSTM names: /usr/bin/python3 -m unittest, in this folder."""

import contextlib
import http.client
import json
import os
import resource
import signal
import socket
import subprocess
import sys
import tempfile
import threading
import time
import unittest
from collections.abc import Mapping
from pathlib import Path

from cryptography.hazmat.primitives.asymmetric.ed25519 import Ed25519PrivateKey

import calls  # first: it finds tools/
import pay
from rvstm_tools.sessions.processes import Session, Settings
from rvstm_tools.sessions.requests import Request, Word
from rvstm_tools.texts.objects import Object
from rvstm_tools.texts.rows import Row

HERE = Path(__file__).resolve().parent
ALICE, BOB, CAROL = (Ed25519PrivateKey.from_private_bytes(bytes([number]) * 32) for number in (1, 2, 3))
PROGRAM = os.environ.get("RVSTM", "")
SECONDS_TO_START = 60
SECONDS_OF_SLOW_SENDERS = 40
TEN_MEGABYTES = 10_000_000
P = 2**255 - 19  # of edwards25519 (RFC 8032, 5.1)
D = -121665 * pow(121666, -1, P) % P


def doubled(x: int, y: int) -> tuple[int, int]:
    """The double of a point of edwards25519."""
    product = D * x * x * y * y
    return 2 * x * y * pow(1 + product, -1, P) % P, (y * y + x * x) * pow(1 - product, -1, P) % P


def points_at(y: int) -> set[tuple[int, int]]:
    """The points with this y."""
    square = (y * y - 1) * pow(D * y * y + 1, -1, P) % P
    root = pow(square, (P + 3) // 8, P)
    roots = {sign * x % P for x in (root, root * pow(2, (P - 1) // 4, P)) for sign in (1, -1)}
    return {(x, y % P) for x in roots if x * x % P == square}


def account(private: Ed25519PrivateKey) -> bytes:
    """The account of a key."""
    return calls.account_of(pay.public_of(private))


class RunningNode:
    """A node as a process, over a file."""

    def __init__(self, store: Path, program: str = PROGRAM) -> None:
        self.program = program
        until = time.monotonic() + SECONDS_TO_START
        while not self.started(store):  # the engine of a node that was killed may have the file yet
            if time.monotonic() > until:
                raise AssertionError("the node does not start")
            time.sleep(0.1)

    def started(self, store: Path) -> bool:
        """Whether the node has started."""
        words = [sys.executable, str(HERE / "node.py"), "--program", self.program, "--store", str(store), "--port", "0"]
        self.process = subprocess.Popen(words, stdout=subprocess.PIPE, stderr=subprocess.PIPE, encoding="utf-8")
        assert self.process.stdout
        self.line = self.process.stdout.readline()
        if not self.line:
            self.end()
            return False
        self.port = int(self.line.split("/")[2].partition(":")[2])
        self.ledger = bytes.fromhex(str(self.ask("GET", f"/accounts/{account(ALICE).hex()}")[1]["ledger"]))
        return True

    def end(self) -> None:
        """Kills the node by signal 9."""
        self.process.kill()
        self.process.communicate()

    def engines(self) -> list[int]:
        """The process of the session; none between one and the next. Processes may end meanwhile."""
        found = []
        for children in Path(f"/proc/{self.process.pid}/task").glob("*/children"):
            with contextlib.suppress(FileNotFoundError, ProcessLookupError):
                for child in children.read_text(encoding="utf-8").split():
                    if b"\0chain\0" in Path(f"/proc/{child}/cmdline").read_bytes():
                        found.append(int(child))
        return found

    def payment(
        self, number: int, payer: Ed25519PrivateKey = ALICE, payee: Ed25519PrivateKey = BOB, amount: int = 1
    ) -> Object:
        """A payment that is signed for this ledger."""
        return pay.signed(payer, self.ledger, pay.PROGRAM, number, account(payee) + amount.to_bytes(8, "little"))

    def ask(
        self, method: str, path: str, body: bytes | None = None, fields: Mapping[str, str] | None = None
    ) -> tuple[int, Object]:
        """The status of an answer, and its object. `fields` are in place of the field Host."""
        connection = http.client.HTTPConnection("127.0.0.1", self.port, timeout=SECONDS_TO_START)
        connection.putrequest(method, path, skip_host=fields is not None)
        for name, value in {"Content-Length": f"{len(body or b'')}", **(fields or {})}.items():
            connection.putheader(name, value)
        connection.endheaders(body)
        answer = connection.getresponse()
        return answer.status, json.loads(answer.read())

    def post(self, given: Object) -> tuple[int, Object]:
        """The answer to a call."""
        return self.ask("POST", "/calls", json.dumps(given).encode())

    def until_receipt(self, given: Object) -> list[object]:
        """Posts a call until it has a receipt, and returns the reasons of the refusals before, all of status 503."""
        reasons, until = list[object](), time.monotonic() + SECONDS_TO_START
        while (answer := self.post(given))[0] != 200:
            assert answer[0] == 503 and time.monotonic() < until, answer
            reasons.append(answer[1]["error"])
            time.sleep(0.1)
        return reasons

    def account(self, private: Ed25519PrivateKey) -> Object:
        """What the node says of an account, beside the name of the ledger."""
        found = self.ask("GET", f"/accounts/{account(private).hex()}")[1]
        del found["ledger"]
        return found

    def page(self) -> str:
        connection = http.client.HTTPConnection("127.0.0.1", self.port, timeout=SECONDS_TO_START)
        connection.request("GET", "/")
        return connection.getresponse().read().decode()


class Posting(threading.Thread):
    """A call that is posted, while the test does something other."""

    def __init__(self, node: RunningNode, given: Object) -> None:
        super().__init__()
        self.node, self.given = node, given
        self.answer: tuple[int, Object] | None = None
        self.start()

    def run(self) -> None:
        try:
            self.answer = self.node.post(self.given)
        except (ConnectionError, http.client.HTTPException):
            pass


@unittest.skipUnless(PROGRAM, "RVSTM names no program")
class WithNode(unittest.TestCase):
    """A node over a file of its own, with the program that RVSTM names or with a script in its place."""

    script = ""

    def setUp(self) -> None:
        place = tempfile.TemporaryDirectory()
        self.addCleanup(place.cleanup)
        self.place = Path(place.name)
        self.store, self.program = self.place / "ledger", PROGRAM
        if self.script:
            path = self.place / "program"
            path.write_text(self.script.replace("PLACE", place.name).replace("PROGRAM", PROGRAM), encoding="utf-8")
            path.chmod(0o755)
            self.program = str(path)
        self.start()

    def start(self) -> None:
        self.node = RunningNode(self.store, self.program)
        self.addCleanup(self.node.end)


class SignedCalls(WithNode):
    def test_receipts(self) -> None:
        status, receipt = self.node.post(self.node.payment(0, amount=30))
        self.assertEqual((status, receipt["block"], receipt["call"], receipt["end"], receipt["output"]), (200, 1, 0, "returned", "46" + "00" * 7))
        self.assertEqual(self.node.account(ALICE), {"next": 1, "coins": 70})
        self.assertEqual(self.node.account(BOB), {"next": 0, "coins": 130})
        status, receipt = self.node.post(self.node.payment(1, amount=71))
        self.assertEqual((status, receipt["end"], bytes.fromhex(str(receipt["output"]))), (200, "reverted", b"too few coins"))
        self.assertEqual(self.node.account(ALICE), {"next": 2, "coins": 70})
        self.assertEqual(self.node.account(CAROL), {"next": 0, "coins": None})

    def test_forged_calls(self) -> None:
        right: Object = self.node.payment(0)
        forged: list[Object]
        data = bytes.fromhex(str(right["input"]))
        forged = [
            {"key": pay.public_of(BOB).hex()}, {"input": (account(CAROL) + data[20:]).hex()}, {"number": 1},
            {"gas": 5001}, {"signature": "00" * 64}, {"signature": ""}, {"key": ""}, {"key": "00" * 31},
            {"signature": self.node.payment(1)["signature"]},
            pay.signed(ALICE, self.node.ledger, "00" * 32, 0, data), pay.signed(ALICE, bytes(32), pay.PROGRAM, 0, data),
        ]
        for changed in forged:
            with self.subTest(changed):
                self.assertEqual(self.node.post(right | changed), (403, {"error": "the signature is not that of the key"}))
        self.assertEqual(self.node.account(ALICE), {"next": 0, "coins": None})

    def test_keys_of_small_order(self) -> None:
        """Eight times each point of the table is (0, 1). The curve has 8 such points, so these are all. Each y below
        2^255 is there; the highest bit is a sign. R = (0, 1) and S = 0 sign some calls for such a key, or all."""
        numbers = {int.from_bytes(key, "little") for key in calls.SMALL_ORDER}
        points = set[tuple[int, int]]().union(*map(points_at, numbers))
        self.assertEqual((len(points), {doubled(*doubled(*doubled(*point))) for point in points}), (8, {(0, 1)}))
        self.assertEqual(numbers, {same for _, y in points for same in (y, y + P) if same < 1 << 255})
        refused = (403, {"error": "the point of the key has small order, so everybody can sign"})
        for key in (number | sign << 255 for number in numbers for sign in (0, 1)):
            forged = {"key": key.to_bytes(32, "little").hex(), "signature": (b"\1" + bytes(63)).hex()}
            with self.subTest(forged):
                self.assertEqual(self.node.post(self.node.payment(0) | forged), refused)

    def test_another_ledger(self) -> None:
        """What is signed for one ledger runs in no other. A ledger keeps its name."""
        other = RunningNode(self.place / "other", self.program)
        self.addCleanup(other.end)
        given, forged = self.node.payment(0), (403, {"error": "the signature is not that of the key"})
        self.assertEqual((other.post(given), self.node.post(given)[0]), (forged, 200))
        ledger = self.node.ledger
        self.node.end()
        self.start()
        self.assertEqual((self.node.ledger, self.node.post(self.node.payment(1))[0]), (ledger, 200))

    def session(self, request: Request) -> Path:
        """The file of a session that another program began with a request."""
        store = self.place / request.word.decode()
        session = Session(PROGRAM, Settings(frame_gas=100_000_000, digest=True, brief=True, store=str(store)))
        session.ask(request)
        session.end()
        return store

    def test_a_ledger_without_a_name(self) -> None:
        """One at height 0 gets a name, and keeps its storage. One at height 1 is refused."""
        row = b"rvblock 2\ngas 3\nstore %s 0500000000000000\n" % Row("coin", account(BOB)).key.hex().encode()
        node = RunningNode(self.session(Request(Word.BEGIN, (b"0", b"0" * 64), row)))
        self.addCleanup(node.end)
        self.assertEqual((len(node.ledger), node.account(BOB)), (32, {"next": 0, "coins": 5}))
        store = self.session(Request(Word.FRAME, (), row))
        words = [sys.executable, str(HERE / "node.py"), "--program", PROGRAM, "--store", str(store)]
        done = subprocess.run(words, capture_output=True, encoding="utf-8", timeout=SECONDS_TO_START, check=False)
        refused = f"node: {store}: the ledger has no name: an older node began it\n"
        self.assertEqual((done.returncode, done.stderr), (1, refused))

    def test_a_call_given_twice(self) -> None:
        """It has one receipt while it waits, and later none."""
        twice = [Posting(self.node, self.node.payment(0)) for _ in range(2)]
        for posting in twice:
            posting.join()
        refused = (409, {"error": "the next call of this account has the number 1"})
        first, second = sorted((posting.answer for posting in twice if posting.answer), key=lambda answer: answer[0])
        self.assertEqual(first[0], 200)
        self.assertIn(second, (first, refused))
        self.assertEqual(self.node.post(self.node.payment(0)), refused)
        self.assertEqual(self.node.post(self.node.payment(2))[0], 409)
        self.assertEqual(self.node.account(ALICE), {"next": 1, "coins": 99})


class Strangers(WithNode):
    def test_a_long_body_is_refused_unread(self) -> None:
        """The answer comes although no byte of the body was sent."""
        with socket.create_connection(("127.0.0.1", self.node.port), timeout=SECONDS_TO_START) as connection:
            head = f"POST /calls HTTP/1.1\r\nHost: localhost\r\nContent-Length: {TEN_MEGABYTES}\r\n\r\n"
            connection.sendall(head.encode())
            answer = b"".join(iter(lambda: connection.recv(4096), b""))
        self.assertRegex(answer.decode(), r"^HTTP/1\.0 413 .*\r\n(.*\r\n)+\r\n.*a call has at most 10000 bytes")

    def test_wrong_requests(self) -> None:
        object_ = "a call is an object with key, number, gas, input, signature: two numbers, and texts in hex"
        bounds = "gas is 1 to 1000000, a number has 64 bits, and an input has at most 4076 bytes"
        right = self.node.payment(0)
        for given, message in (
            (b"", object_), (b"\xff\xfe", object_), (b"[]", object_), (b"7", object_), (b"[" * 9000, object_), (b"null", object_),
            (b'{"key": 7}', object_), (json.dumps(right | {"more": 1}).encode(), object_), (b"9" * 9000, object_),
            (json.dumps(right | {"number": True}).encode(), object_), (json.dumps(right | {"number": 0.0}).encode(), object_),
            (json.dumps(right | {"key": "xy"}).encode(), object_), (json.dumps(right | {"gas": 0}).encode(), bounds),
            (json.dumps(right | {"gas": 1_000_001}).encode(), bounds), (json.dumps(right | {"number": -1}).encode(), bounds),
            (json.dumps(right | {"number": 1 << 64}).encode(), bounds), (json.dumps(right | {"input": "00" * 4077}).encode(), bounds),
        ):
            with self.subTest(given[:60]):
                self.assertEqual(self.node.ask("POST", "/calls", given), (400, {"error": message}))
        self.assertEqual(self.node.ask("POST", "/call", b"")[0], 400)
        self.assertEqual(self.node.ask("GET", "/accounts/what")[0], 404)

    def test_web_pages(self) -> None:
        """A page of another origin, also one whose name leads to the loopback address, posts no call."""
        body, here = json.dumps(self.node.payment(0)).encode(), f"127.0.0.1:{self.node.port}"
        refused = (403, {"error": "a call names 127.0.0.1 or localhost as its Host, and no other Origin"})
        wrong: tuple[dict[str, str], ...] = (
            {"Host": f"evil.example:{self.node.port}"}, {"Host": "127.0.0.1.evil.example"}, {"Host": ""}, {},
            {"Host": here, "host": "evil.example"}, {"Host": here, "Origin": "http://evil.example"},
            {"Host": here, "Origin": "null"}, {"Host": here, "Origin": f"https://{here}"},
            {"Host": here, "Origin": "http://127.0.0.1:1"},
        )
        for fields in wrong:
            with self.subTest(fields):
                self.assertEqual(self.node.ask("POST", "/calls", body, fields), refused)
        self.assertEqual(self.node.ask("POST", "/calls", body, {"Host": here, "Origin": f"http://{here}"})[0], 200)

    def test_slow_senders(self) -> None:
        """1,100 connections send a byte now and then: the node lives, and takes a call when their time is over."""
        resource.setrlimit(resource.RLIMIT_NOFILE, (2048, resource.getrlimit(resource.RLIMIT_NOFILE)[1]))
        resource.prlimit(self.node.process.pid, resource.RLIMIT_NOFILE, (1024, 1024))
        first, until = Posting(self.node, self.node.payment(0)), time.monotonic() + SECONDS_OF_SLOW_SENDERS
        here = ("127.0.0.1", self.node.port)
        with contextlib.ExitStack() as stack:
            slow = [stack.enter_context(socket.create_connection(here, 5)) for _ in range(1100)]
            second = Posting(self.node, self.node.payment(1))
            while (second.is_alive() or not second.answer or second.answer[0] != 200) and time.monotonic() < until:
                for connection in slow:
                    with contextlib.suppress(OSError):
                        connection.send(b"P")
                second.join(0.5)
                if not second.is_alive() and (not second.answer or second.answer[0] == 503):
                    second = Posting(self.node, self.node.payment(1))
            self.assertIsNone(self.node.process.poll(), "the node ended")
            self.assertEqual([posting.answer and posting.answer[0] for posting in (first, second)], [200, 200])

    def test_backlog(self) -> None:
        """So many connect while the node does not run."""
        self.node.process.send_signal(signal.SIGSTOP)
        self.addCleanup(self.node.process.send_signal, signal.SIGCONT)
        for _ in range(128):
            self.addCleanup(socket.create_connection(("127.0.0.1", self.node.port), timeout=5).close)


class Pages(WithNode):
    """What is asked of the program is kept."""

    script = """#!/bin/sh
echo "$1" >>PLACE/runs
[ "$1" = chain ] || exec PROGRAM "$@"
tee -a PLACE/requests | PROGRAM "$@"
"""

    def test_the_page(self) -> None:
        """Bob pays 200 only since he was paid before: so the picture shows the gas of the receipt."""
        for number, (payer, payee, amount) in enumerate(((ALICE, BOB, 100), (BOB, CAROL, 200), (CAROL, ALICE, 0))):
            status, receipt = self.node.post(self.node.payment(0, payer, payee, amount))
            self.assertEqual((status, receipt["end"]), (200, "returned"))
            self.assertIn(f"{receipt['gas']:,} gas", self.node.page())
        page = self.node.page()
        self.assertEqual([page.count(text) for text in (">Block ", "<svg ", account(CAROL).hex()[:8])], [3, 3, 1])

    def test_a_picture_that_can_not_be_made(self) -> None:
        """The node has no files left for it. It is made when there are some."""
        process = self.node.process.pid
        limits = resource.prlimit(process, resource.RLIMIT_NOFILE)
        files = len(list(Path(f"/proc/{process}/fd").iterdir()))
        resource.prlimit(process, resource.RLIMIT_NOFILE, (files + 3, limits[1]))
        self.assertEqual(self.node.post(self.node.payment(0))[0], 200)
        self.assertRegex(self.node.page(), "Block 1, [0-9:]* UTC: no picture: .*Too many open files")
        resource.prlimit(process, resource.RLIMIT_NOFILE, limits)
        self.assertIn("<svg ", self.node.page())
        self.assertEqual(self.node.post(self.node.payment(1))[0], 200)

    def test_what_a_block_costs(self) -> None:
        """The storage is dumped once, for the name. A block runs again once, when somebody asks for the page."""
        for number in range(2):
            self.assertEqual(self.node.post(self.node.payment(number))[0], 200)
        self.assertEqual((self.place / "requests").read_bytes().count(b"\ndump\n"), 1)
        self.assertEqual((self.place / "runs").read_text(encoding="utf-8"), "chain\n")
        self.assertEqual((self.node.page().count("<svg "), self.node.page().count("<svg ")), (2, 2))
        self.assertEqual((self.place / "runs").read_text(encoding="utf-8"), "chain\nconflicts\nconflicts\n")


class Failures(WithNode):
    """Engines that fail. The limit on the size of files is no signal for these engines."""

    script = """#!/bin/sh
echo "$1" >>PLACE/runs
if [ -e PLACE/dies ]; then kill -9 $$; fi
if [ -e PLACE/says ]; then cat PLACE/says >&2; exit 1; fi
trap "" XFSZ
exec PROGRAM "$@"
"""

    def test_an_engine_that_another_signal_ends(self) -> None:
        """It ends while no block runs. Those who ask before the next one runs are refused; each has an answer."""
        (engine,) = self.node.engines()
        os.kill(engine, signal.SIGTERM)
        reasons = self.node.until_receipt(self.node.payment(0))
        self.assertLessEqual(set(reasons), {"the engine failed: the session ended with status -15"})
        self.assertEqual(self.node.account(ALICE), {"next": 1, "coins": 99})

    def test_an_engine_that_dies_each_time(self) -> None:
        """It is started less and less often. The page says why there is none."""
        (self.place / "dies").touch()
        (engine,) = self.node.engines()
        os.kill(engine, signal.SIGKILL)
        posting = Posting(self.node, self.node.payment(0))
        time.sleep(2.5)
        reason = "the engine failed: it was killed 3 times before it answered"
        self.assertLess(len((self.place / "runs").read_text(encoding="utf-8").split()), 12)
        self.assertEqual(posting.answer, (503, {"error": reason}))
        self.assertIn(reason, self.node.page())
        (self.place / "dies").unlink()
        self.node.until_receipt(self.node.payment(0))
        self.assertNotIn("the engine failed", self.node.page())

    def test_what_an_engine_says(self) -> None:
        """It reaches clients and the terminal of the node without its escape sequences."""
        (self.place / "says").write_bytes(b"\x1b[2Jno\nmore\n")
        (engine,) = self.node.engines()
        os.kill(engine, signal.SIGKILL)
        self.assertEqual(self.node.post(self.node.payment(0)), (503, {"error": "the engine failed: \\x1b[2Jno"}))
        self.node.process.kill()
        said = self.node.process.communicate()[1].splitlines()
        self.assertEqual(set(said), {"node: the engine failed: \\x1b[2Jno"})

    def test_a_full_disk(self) -> None:
        """Those who wait get the reason, and a receipt if they send again and there is room."""
        (engine,) = self.node.engines()
        resource.prlimit(engine, resource.RLIMIT_FSIZE, (4096, 4096))
        refused = (503, {"error": "the engine failed: the block did not run: failed store Full 8"})
        self.assertEqual(self.node.post(self.node.payment(0)), refused)
        self.node.until_receipt(self.node.payment(0))
        self.assertEqual(self.node.account(ALICE), {"next": 1, "coins": 99})


class Kills(WithNode):
    def test_an_engine_that_is_killed_in_a_block(self) -> None:
        """The frame was not kept: the node starts another engine, and gives it again. The receipt comes."""
        self.node.post(self.node.payment(0))
        (engine,) = self.node.engines()
        os.kill(engine, signal.SIGSTOP)
        posting = Posting(self.node, self.node.payment(1))
        time.sleep(2.5)  # the block has begun
        os.kill(engine, signal.SIGKILL)
        posting.join()
        assert posting.answer
        self.assertEqual((posting.answer[0], posting.answer[1]["block"]), (200, 2))
        self.assertEqual(self.node.account(ALICE), {"next": 2, "coins": 98})
        self.assertNotEqual(self.node.engines(), [engine])

    def test_engines_that_are_killed_again_and_again(self) -> None:
        """Each call has at most one receipt, and runs once. The engines live longer and longer, so that one lives long
        enough to open the file."""
        for number in range(3):
            posting, life = Posting(self.node, self.node.payment(number)), 0.2
            while posting.is_alive() or posting.answer and posting.answer[0] == 503:
                if not posting.is_alive():
                    time.sleep(1)
                    posting = Posting(self.node, self.node.payment(number))
                posting.join(life)
                life *= 1.7
                for engine in self.node.engines():
                    os.kill(engine, signal.SIGKILL)
            assert posting.answer
            self.assertIn(posting.answer[0], (200, 409))
        self.assertEqual(self.node.account(ALICE), {"next": 3, "coins": 97})

    def test_a_node_that_is_killed_in_a_block(self) -> None:
        """Its sender has no receipt, and sends the call again: it runs once, or is refused since it ran."""
        for wait in (0.2, 0.9, 1.0, 1.1):
            ran = self.node.account(ALICE)["next"]
            assert isinstance(ran, int)
            posting = Posting(self.node, self.node.payment(ran))
            time.sleep(wait)
            self.node.end()
            posting.join()
            self.start()
            status, answer = self.node.post(self.node.payment(ran))
            self.assertIn((status, answer.get("error")), [(200, None), (409, f"the next call of this account has the number {ran + 1}")])
            self.assertEqual(self.node.account(ALICE), {"next": ran + 1, "coins": 99 - ran})


if __name__ == "__main__":
    unittest.main()
