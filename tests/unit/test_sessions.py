"""Sessions: the requests and answers of docs/formats.md, a cut at each byte, and processes that die."""

import hashlib
import io
import sys
import unittest
from pathlib import Path

from rvstm_tools.errors import UserError
from rvstm_tools.programs.pipes import Pipes
from rvstm_tools.sessions import answers, frames, requests
from rvstm_tools.sessions.answers import Answer, Done, Kind, Refusal, State
from rvstm_tools.sessions.kept import KeptSession
from rvstm_tools.sessions.processes import Session, Settings
from rvstm_tools.sessions.requests import Request, Word
from rvstm_tools.texts.blocks import Rules
from rvstm_tools.texts.keys import Key
from unit.helpers import InFolder

NAME = b"0123456789abcdef" * 4
KEY = Key(bytes(31) + b"\7")
STATE = (
    b"rules 3\nheight 12\nkeys 7\nprograms 2\nframe-limit 67108864\nframe-gas none\nbrief 0\n"
    b"digest " + b"ab" * 32 + b"\n"
)


REQUESTS = (
    (Request(Word.PROGRAM, (), b"\x7fELF"), b"program 4\n\x7fELF"),
    (Request(Word.FRAME, (), b"rvblock 1\n"), b"frame 10\nrvblock 1\n"),
    (Request(Word.TRY, (), b""), b"try 0\n"),
    (Request(Word.BEGIN, (b"7", b"-"), b"q\n"), b"begin 7 - 2\nq\n"),
    (Request(Word.BEGIN, (b"9999999999", NAME), b""), b"begin 9999999999 " + NAME + b" 0\n"),
    (Request(Word.FORGET, (NAME,)), b"forget " + NAME + b"\n"),
    (Request(Word.GET, (NAME,)), b"get " + NAME + b"\n"),
    (Request(Word.LIST, (NAME, b"1024")), b"list " + NAME + b" 1024\n"),
    (Request(Word.PROGRAMS), b"programs\n"),
    (Request(Word.LAST), b"last\n"),
    (Request(Word.DUMP), b"dump\n"),
    (Request(Word.STATE), b"state\n"),
)


class OfRequests(unittest.TestCase):
    def test_the_bytes_of_each_request(self) -> None:
        for request, text in REQUESTS:
            with self.subTest(text):
                self.assertEqual(request.text(), text)

    def test_begin(self) -> None:
        self.assertEqual(requests.begin(3, bytes(32), b"x").text(), b"begin 3 " + b"0" * 64 + b" 1\nx")
        self.assertEqual(requests.begin(0, None, b"").text(), b"begin 0 - 0\n")


class OfAnswers(unittest.TestCase):
    ANSWERS: tuple[tuple[Answer, bytes], ...] = (
        (Done(b""), b"ok 0\n"),
        (Done(b"absent\n"), b"ok 7\nabsent\n"),
        (Refusal(Kind.REFUSED, "block", "BadLine", 2, 17), b"refused block 17 BadLine 2\n"),
        (Refusal(Kind.REFUSED, "frame", "NoFrame", 7), b"refused frame NoFrame 7\n"),
        (Refusal(Kind.FAILED, "store", "Full", 8), b"failed store Full 8\n"),
    )

    def test_the_bytes_of_each_answer(self) -> None:
        stream = io.BytesIO(b"".join(text for _, text in self.ANSWERS))
        for answer, text in self.ANSWERS:
            with self.subTest(text):
                self.assertEqual(answer.text(), text)
                self.assertEqual(answers.next_answer(stream), answer)
                self.assertEqual(answer.line + answer.body, text)
        self.assertIsNone(answers.next_answer(stream))

    def test_a_cut_at_each_byte(self) -> None:
        for _, text in self.ANSWERS:
            for end in range(len(text)):
                with self.subTest(text[:end]):
                    self.assertIsNone(answers.next_answer(io.BytesIO(text[:end])))

    def test_wrong_lines(self) -> None:
        for line in (b"", b"ok", b"ok x", b"ok -1", b"ok 01", b"OK 0", b"refused", b"refused frame", b"refused frame NoFrame",
                     b"refused frame 7", b"refused frame 01 NoFrame 7", b"failed Store Full 8", b"\xff", b"x" * 300,
                     b"ok 99999999999999999999"):
            with self.subTest(line), self.assertRaises(UserError) as caught:
                answers.next_answer(io.BytesIO(line + b"\n"))
            self.assertEqual(str(caught.exception), f"not a line of an answer: {(line + bytes([10]))[:200]!r}")

    def test_refusals_by_their_words(self) -> None:
        wanted = Refusal(Kind.REFUSED, "elf", "BadMagic", 2)
        self.assertEqual(answers.refused(b"elf BadMagic 2"), wanted)
        self.assertEqual(answers.refused(b"elf BadMagic 2\n"), wanted)
        with self.assertRaises(ValueError):
            answers.refused(b"nonsense")

    def test_the_state(self) -> None:
        state = State(3, 12, 7, 2, 67108864, None, False, b"\xab" * 32)
        self.assertEqual(answers.state_of(STATE), state)
        self.assertEqual(answers.state_text(state), STATE)
        bounded = STATE.replace(b"none", b"0").replace(b"brief 0", b"brief 1").partition(b"digest")[0]
        self.assertEqual(answers.state_of(bounded), State(3, 12, 7, 2, 67108864, 0, True, None))
        self.assertEqual(answers.state_text(answers.state_of(bounded)), bounded)

    def test_wrong_states(self) -> None:
        for end in range(len(STATE)):
            if STATE[:end] != STATE.partition(b"digest")[0]:
                with self.subTest(end), self.assertRaises(UserError):
                    answers.state_of(STATE[:end])


class OfFrames(InFolder):
    BLOCK = b"rvblock 2\ngas 3\nprogram 0 a.elf\nstore %s 01\ncall 0 9 -\n" % KEY.hex().encode()

    def test_names_and_files(self) -> None:
        self.write("a.elf", b"some bytes")
        name = hashlib.sha256(b"some bytes").hexdigest()
        found = frames.named(self.BLOCK, self.folder)
        self.assertEqual(found.block, self.BLOCK.replace(b"a.elf", name.encode()))
        self.assertEqual(found.programs(), [Request(Word.PROGRAM, (), b"some bytes")])
        self.assertEqual(found.frame(), Request(Word.FRAME, (), found.block))

    def test_a_path_without_a_file_stays(self) -> None:
        self.assertEqual(frames.named(self.BLOCK, self.folder), frames.Named(self.BLOCK, {}))

    def test_put_over_a_storage(self) -> None:
        other = Key(bytes(32))
        wanted = self.BLOCK.replace(b"store", b"store %s ff\nstore" % other.hex().encode(), 1)
        self.assertEqual(frames.put_over(self.BLOCK, {KEY: b"\0", other: b"\xff"}), wanted)

    def test_rules_storage_receipts_and_dump(self) -> None:
        self.assertEqual(frames.rules_of(self.BLOCK), Rules.THREE)
        self.assertEqual(frames.rules_of(b"rvblock 1\n"), Rules.ONE)
        self.assertEqual(frames.stored_in(self.BLOCK), {KEY: b"\1"})
        self.assertEqual(frames.dump_of(2, {KEY: b""}), b"rvblock 2\ngas 2\nstore %s -\n" % KEY.hex().encode())
        result = b"call 0\nregs 0\nwrite 0\nstore 0\nend\n"
        self.assertEqual(frames.receipts_of(result), b"call 0\nregs 0\nwrite 0\nend\n")
        self.assertEqual(frames.receipts_of(result, is_brief=True), b"call 0\nwrite 0\nend\n")

    def test_settings(self) -> None:
        self.assertEqual(Settings().words(), ["chain"])
        words = "chain --workers 2 --frame-limit 5 --frame-gas 0 --store F --digest --brief"
        self.assertEqual(Settings(5, 0, True, True, 2, "F").words(), words.split())


class Processes(InFolder):
    def program(self, text: str) -> Path:
        path = Path(self.write("program", f"#!/bin/sh\n{text}\n"))
        path.chmod(0o755)
        return path

    def test_a_process_that_dies(self) -> None:
        for text in ("exit 0", "printf 'ok 5\\nend'", "printf 'ok'", "kill -9 $$"):
            with self.subTest(text), Session(self.program(text)) as session:
                self.assertIsNone(session.ask(Request(Word.DUMP)))

    def test_what_is_left_at_the_end(self) -> None:
        with Session(self.program("read line; printf 'ok 0\\n'; read line; echo bye; echo what >&2; exit 3")) as session:
            self.assertEqual(session.ask(Request(Word.LAST)), Done())
            ended = session.end()
        self.assertEqual((ended.output, ended.said(), ended.status), (b"bye\n", "what", 3))

    def test_an_answer_that_is_none(self) -> None:
        with Session(self.program("read line; echo nonsense")) as session, self.assertRaises(UserError):
            session.ask(Request(Word.LAST))

    def test_signals_that_are_ignored_here(self) -> None:
        """The process has SIGXFSZ, 25, in its mask of ignored signals only if that is asked for."""
        program = self.program("sed -n 's/^SigIgn:.//p' /proc/$$/status")
        for is_as_here in (False, True):
            with Pipes([program], is_as_here=is_as_here) as pipes:
                mask = int(next(pipes.lines(1)), 16)
            self.assertEqual(bool(mask >> 24 & 1), is_as_here)


CHAIN = f"""\
#!{sys.executable} -IS
# A session whose file has its height. It dies once over a frame that says so.
import os, sys
def height():
    with open("FOLDER/height", "rb") as file:
        return file.read()
def kill():
    os.kill(os.getpid(), 9)
def die(text, *, wanted):
    if text == wanted and not os.path.exists("FOLDER/died"):
        open("FOLDER/died", "xb").close()
        kill()
while line := sys.stdin.buffer.readline():
    words = line.split()
    body = sys.stdin.buffer.read(int(words[-1])) if words[0] in (b"program", b"frame") else b""
    answer = b""
    if words[0] == b"frame":
        die(body, wanted=b"die before")
        higher = b"%d" % (int(height()) + (2 if body == b"two" else 1))
        with open("FOLDER/height", "wb") as file:
            file.write(higher)
        die(body, wanted=b"die after")
        if body == b"two":
            kill()
        answer = b"answer to " + body
    elif words[0] == b"last":
        answer = b"the last answer"
    elif words[0] == b"state":
        answer = b"rules 1\\nheight %s\\nkeys 0\\nprograms 0\\nframe-limit 9\\nframe-gas none\\nbrief 0\\n" % height()
    sys.stdout.buffer.write(b"ok %d\\n" % len(answer) + answer)
    sys.stdout.flush()
"""


class OfAKeptSession(InFolder):
    def setUp(self) -> None:
        super().setUp()
        self.write("height", "0")

    def kept(self, text: str = CHAIN) -> KeptSession:
        program = Path(self.write("program", text.replace("FOLDER", str(self.folder))))
        program.chmod(0o755)
        found = KeptSession(lambda: Session(program), [Request(Word.PROGRAM, (), b"file")])
        self.addCleanup(lambda: found.session.kill())
        return found

    def test_a_frame_that_was_not_kept_is_given_again(self) -> None:
        kept = self.kept()
        self.assertEqual(kept.run(b"one"), Done(b"answer to one"))
        self.assertEqual(kept.run(b"die before"), Done(b"answer to die before"))
        self.assertEqual((kept.height, kept.deaths, Path(f"{self.folder}/height").read_text(encoding="utf-8")), (2, 1, "2"))

    def test_a_frame_that_was_kept_is_not_given_again(self) -> None:
        kept = self.kept()
        self.assertEqual(kept.run(b"die after"), Done(b"the last answer"))
        self.assertEqual((kept.height, kept.deaths, Path(f"{self.folder}/height").read_text(encoding="utf-8")), (1, 1, "1"))

    def test_a_process_that_is_killed_between_two_requests(self) -> None:
        kept = self.kept()
        kept.session.process.kill()
        kept.session.process.wait()
        self.assertEqual(kept.ask(Request(Word.LAST)), Done(b"the last answer"))
        kept.end()

    def test_another_height_is_an_error(self) -> None:
        with self.assertRaises(UserError) as caught:
            self.kept().run(b"two")
        self.assertEqual(str(caught.exception), "the session is at height 2, and 0 was the last that was answered")

    def test_messages(self) -> None:
        for text, message in {
            "#!/bin/sh\nexit 0\n": "the session ended with status 0",
            "#!/bin/sh\necho rvstm: store Busy 1 >&2\nexit 1\n": "rvstm: store Busy 1",
            "#!/bin/sh\nread line\necho refused elf BadMagic 2\nread line\necho refused frame NoFrame 7\nread line\n":
                "the session does not begin: refused elf BadMagic 2",
            "#!/bin/sh\nread line\necho ok 0\nread line\necho refused frame NoFrame 7\nread line\n":
                "the session does not begin: refused frame NoFrame 7",
            "#!/bin/sh\necho nonsense\nread line\nread line\n": "not a line of an answer: b'nonsense\\n'",
        }.items():
            with self.subTest(message), self.assertRaises(UserError) as caught:
                self.kept(text)
            self.assertEqual(str(caught.exception), message)

    def test_a_frame_that_failed_is_not_counted(self) -> None:
        kept = self.kept(CHAIN.replace('answer = b"answer to " + body', 'os.write(1, b"failed store Full 8\\n"); continue'))
        self.assertEqual((kept.run(b"one"), kept.height), (Refusal(Kind.FAILED, "store", "Full", 8), 0))

    def test_ends(self) -> None:
        for end, message in ("", None), ("kill()", None), ("sys.exit(3)", "the session ended with status 3"), ("sys.exit('why')", "why"):
            kept = self.kept(f"{CHAIN}    if words == [b'q']:\n        {end or 'pass'}\n")
            with self.subTest(end):
                if message is None:
                    kept.end()
                else:
                    self.assertRaisesRegex(UserError, f"^{message}$", kept.end)
