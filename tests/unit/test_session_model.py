"""The model of a session, with a stub of rvstm: the requests of an input, and the answers of docs/formats.md."""

import hashlib
import unittest
from collections.abc import Sequence
from pathlib import Path

from rvstm_developers.models import inputs
from rvstm_developers.models.inputs import Fault, FoundRequest, Input
from rvstm_developers.models.sessions import SessionModel
from rvstm_tools.programs.running import Printed
from rvstm_tools.sessions.answers import State
from rvstm_tools.sessions.processes import Settings
from rvstm_tools.sessions.requests import Request, Word
from rvstm_tools.texts.keys import Key

NAME = b"0123456789abcdef" * 4
KEY = Key(bytes(31) + b"\7")
REQUESTS = (
    (Request(Word.PROGRAM, (), b"\x7fELF"), b"program 4\n\x7fELF"),
    (Request(Word.FRAME, (), b"rvblock 1\n"), b"frame 10\nrvblock 1\n"),
    (Request(Word.TRY, (), b""), b"try 0\n"),
    (Request(Word.BEGIN, (b"7", b"-"), b"q\n"), b"begin 7 - 2\nq\n"),
    (Request(Word.BEGIN, (b"9999999999", NAME), b""), b"begin 9999999999 " + NAME + b" 0\n"),
    (Request(Word.FORGET, (NAME,)), b"forget " + NAME + b"\n"),
    (Request(Word.GET, (NAME,)), b"get " + NAME + b"\n"),
    (Request(Word.LIST, (NAME, b"1024")), b"list " + NAME + b" 1024\n"),
    (Request(Word.PROGRAMS), b"programs\n"),
    (Request(Word.LAST), b"last\n"),
    (Request(Word.DUMP), b"dump\n"),
    (Request(Word.STATE), b"state\n"),
)


class OfInputs(unittest.TestCase):
    def test_each_request(self) -> None:
        for request, text in REQUESTS:
            with self.subTest(text):
                self.assertEqual(inputs.next_request(text), FoundRequest(request, len(text)))

    def test_all_in_one_input(self) -> None:
        text = b"".join(text for _, text in REQUESTS)
        wanted = [request for request, _ in REQUESTS]
        self.assertEqual(inputs.requests_of(text), Input(wanted, Fault.NONE))
        self.assertEqual(inputs.requests_of(text + b"q\nnonsense"), Input(wanted, Fault.NONE))

    def test_a_cut_at_each_byte(self) -> None:
        for request, text in REQUESTS:
            line = text.index(b"\n") + 1
            for end in range(1, len(text)):
                with self.subTest(text[:end]):
                    wanted = Fault.BAD_LINE if end < line else Fault.CUT
                    self.assertEqual(inputs.next_request(text[:end]), wanted)

    def test_wrong_lines(self) -> None:
        for line in (
            b"", b" state", b"state ", b"state\r", b"State", b"get", b"get 0", b"get " + NAME.upper(), b"get " + NAME + b"0",
            b"list " + NAME, b"list " + NAME + b" 0", b"list " + NAME + b" 1025", b"list " + NAME + b" 01", b"frame", b"frame 01",
            b"frame -1", b"frame 10000000000", b"begin 1 2 3", b"begin 1 -", b"begin " + NAME + b" - 0", b"quit", b"\xff", b"x" * 200,
        ):
            with self.subTest(line):
                self.assertIs(inputs.next_request(line + b"\n"), Fault.BAD_LINE)


class FakeSeq:
    """Used in place of rvstm: each block leaves what it has, without a call, or is refused."""

    def __init__(self) -> None:
        self.refusals: dict[str, str] = {}

    def run(self, words: Sequence[str], folder: Path) -> Printed:
        text = Path(words[1]).read_text(encoding="utf-8")
        for part, refusal in self.refusals.items():
            if part in text:
                return Printed("", f"rvstm: {refusal}")
        stores = "".join(line for line in text.splitlines(keepends=True) if line.startswith("store "))
        return Printed(f"{stores}end\n")


class OfAModel(unittest.TestCase):
    """The answers are those of docs/formats.md, row by row."""

    def setUp(self) -> None:
        self.seq = FakeSeq()
        self.model = SessionModel(self.seq, Settings(digest=True, frame_limit=200, frame_gas=100))
        self.addCleanup(self.model.place.cleanup)

    def ask(self, word: Word, *fields: bytes, body: bytes = b"") -> bytes:
        return self.model.answer(Request(word, fields, body)).text()

    def test_programs(self) -> None:
        name = hashlib.sha256(b"file").hexdigest().encode()
        self.assertEqual(self.ask(Word.PROGRAMS), b"ok 0\n")
        self.assertEqual(self.ask(Word.PROGRAM, body=b"file"), b"ok 65\n" + name + b"\n")
        self.assertEqual(self.ask(Word.PROGRAMS), b"ok 65\n" + name + b"\n")
        self.assertEqual(self.ask(Word.FORGET, name), b"ok 0\n")
        self.assertEqual(self.ask(Word.FORGET, name), b"refused frame NoProgram 3\n")
        self.assertEqual(self.ask(Word.PROGRAM, body=bytes(131_073)), b"refused file TooLong 3\n")
        self.seq.refusals["program 0 "] = "elf BadMagic 2"
        self.assertEqual(self.ask(Word.PROGRAM, body=b"no program"), b"refused elf BadMagic 2\n")

    def test_frames(self) -> None:
        block = b"rvblock 1\nstore %s 05\n" % KEY.hex().encode()
        self.assertEqual(self.ask(Word.LAST), b"refused frame NoFrame 7\n")
        self.assertEqual(self.ask(Word.TRY, body=block), b"ok 4\nend\n")
        self.assertEqual(self.ask(Word.GET, KEY.hex().encode()), b"ok 7\nabsent\n")
        self.assertEqual(self.ask(Word.FRAME, body=block), b"ok 4\nend\n")
        self.assertEqual(self.ask(Word.LAST), b"ok 4\nend\n")
        self.assertEqual(self.ask(Word.GET, KEY.hex().encode()), b"ok 9\nvalue 05\n")
        self.assertEqual(self.ask(Word.LIST, b"0" * 64, b"1"), b"ok 74\nstore %s 05\n" % KEY.hex().encode())
        self.assertEqual(self.ask(Word.LIST, b"f" * 64, b"1"), b"ok 0\n")
        self.assertEqual(self.ask(Word.DUMP), b"ok 90\nrvblock 2\ngas 1\nstore %s 05\n" % KEY.hex().encode())
        digest = hashlib.sha256(bytes(32) + b"ok 4\nend\n").hexdigest()
        self.assertEqual(self.model.state(), State(1, 1, 1, 0, 200, 100, False, bytes.fromhex(digest)))

    def test_refused_frames(self) -> None:
        self.seq.refusals["nonsense"] = "block 2 BadLine 2"
        for body, line in (
            (b"rvblock 1\nnonsense\n", b"refused block 2 BadLine 2\n"),
            (b"rvblock 1\n" + b"x" * 191, b"refused frame TooLong 4\n"),
            (b"rvblock 1\nprogram 0 x\ncall 0 60 -\ncall 0 41 -\n", b"refused frame TooMuchGas 5\n"),
            (b"rvblock 1\nprogram 0 x\ncall 0 60 -\n", b"refused frame NoProgram 3\n"),
        ):
            with self.subTest(line):
                self.assertEqual(self.ask(Word.FRAME, body=body), line)
                self.assertEqual(self.ask(Word.LAST), line)
        self.assertEqual(self.ask(Word.FRAME, body=b"rvblock 2\ngas 2\n"), b"ok 4\nend\n")
        self.assertEqual(self.ask(Word.FRAME, body=b"rvblock 1\n"), b"refused frame OlderRules 2\n")

    def test_begin(self) -> None:
        zeros = b"0" * 64
        self.assertEqual(self.ask(Word.BEGIN, b"5", b"-", body=b"rvblock 1\n"), b"refused frame OtherDigest 8\n")
        self.assertEqual(self.ask(Word.BEGIN, b"5", zeros, body=b"rvblock 1\nprogram 0 x\n"), b"refused frame NotADump 6\n")
        self.assertEqual(self.ask(Word.BEGIN, b"9999999999", zeros, body=b"rvblock 2\ngas 3\n"), b"ok 0\n")
        self.assertEqual(self.ask(Word.FRAME, body=b"rvblock 2\ngas 3\n"), b"refused frame TooHigh 9\n")
        self.assertEqual(self.ask(Word.LAST), b"refused frame NoFrame 7\n")
        self.assertEqual(self.model.state().height, 9_999_999_999)

    def test_whole_inputs(self) -> None:
        outcome = self.model.outcome(b"last\nget 0\n")
        wanted = (b"refused frame NoFrame 7\nrefused request BadLine 1\n", b"rvstm: request BadLine 1\n", 1)
        self.assertEqual((outcome.output, outcome.errors, outcome.status), wanted)
        self.assertEqual(self.model.outcome(b"q\n").status, 0)
