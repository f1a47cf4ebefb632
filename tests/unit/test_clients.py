"""The session command: lists that are run as frames, requests by options and as they are typed, and frames that are sent again."""

import hashlib
import io
import os
import re
import sys
import unittest
from pathlib import Path
from unittest import mock

from rvstm_tools.sessions.clients import Client
from rvstm_tools.sessions.processes import Session
from rvstm_tools.sessions.typed import Completion
from rvstm_tools.texts import lists
from rvstm_tools.texts.views import View
from unit.helpers import InFolder, called, called_with

ALICE, BOB = (name.encode().ljust(32, b"\0").hex() for name in ("alice", "bob"))
CHAIN = f"""\
#!{sys.executable} -IS
import sys
ANSWERS = {{
    b"state": b"rules 1\\nheight 1\\nkeys 2\\nprograms 1\\nframe-limit 67108864\\nframe-gas none\\n"
    b"brief 0\\ndigest " + b"ab" * 32 + b"\\n",
    b"frame": b"call 0 returned gas 9 pc 00010000 out 07\\nwrite 0 {BOB} 0500000000000000\\nend\\n",
    b"get": b"value 0500000000000000\\n",
    b"dump": b"rvblock 2\\ngas 1\\nstore {ALICE} -\\nstore {BOB} 0500000000000000\\n",
    b"list": b"store {BOB} 0500000000000000\\n", b"program": b"cd" * 32 + b"\\n", b"begin": b"", b"forget": b"",
}}
ANSWERS[b"try"] = ANSWERS[b"last"] = ANSWERS[b"frame"]
with open("LOG", "ab") as log:
    log.write(" ".join(sys.argv[1:]).encode() + b"\\n")
    while line := sys.stdin.buffer.readline():
        words = line.split()
        body = sys.stdin.buffer.read(int(words[-1])) if words[0] in (b"program", b"frame", b"try", b"begin") else b""
        log.write(line + body + (b"" if body.endswith(b"\\n") or not body else b"\\n"))
        log.flush()
        if words[0] == b"q":
            break
        answer = ANSWERS.get(words[0])
        if b"refuse" in body or answer is None:
            sys.stdout.buffer.write(b"refused block 3 BadLine 2\\n")
        elif b"die" in body:
            sys.exit("rvstm: store Busy 1")
        else:
            sys.stdout.buffer.write(b"ok %d\\n" % len(answer) + answer)
        sys.stdout.flush()
"""
LIST = "program a a.elf\nshape key:bob votes:u64\nstore key:bob u64:4\ncall a 9 key:bob\nexpect returned 07\n"
TABLE = (
    "call  end                   gas  pc        output\n"
    "   0  returned                9  00010000  07  7\n"
    '      wrote "bob": votes 5\n'
)
BLOCK = f"rvblock 1\nprogram 0 {hashlib.sha256(b'file').hexdigest()}\nstore {BOB} 0400000000000000\ncall 0 9 {BOB}\n"
DIGEST = "ab" * 32


class WithChain(InFolder):
    """A program of its own in place of rvstm, which answers each request by the same bytes and logs it."""

    def setUp(self) -> None:
        super().setUp()
        self.log = self.folder / "log"
        self.program = Path(self.write("program", CHAIN.replace("LOG", str(self.log))))
        self.program.chmod(0o755)
        self.enterContext(mock.patch.dict(os.environ, {"RVSTM": str(self.program)}))
        self.write("a.elf", b"file")
        self.list = self.write("a.list", LIST)

    def logged(self) -> list[str]:
        return self.log.read_text(encoding="utf-8").splitlines()


class OfOptions(WithChain):
    def test_a_list(self) -> None:
        self.assertEqual(called("session", self.list), (0, f"frame {self.list}\n{TABLE}", ""))
        self.assertEqual(self.logged(), ["chain --digest", "program 4", "file", f"frame {len(BLOCK)}", *BLOCK.splitlines(), "q"])

    def test_requests_after_lists_in_their_order(self) -> None:
        out = self.folder / "out"
        words = (self.list, "--last", "--get", "key:bob", "--list", "--list", "key:bob", "--dump", "--dump", str(out), "--state")
        status, output, faults = called("session", *words)
        rows = '      "alice": -\n      "bob": votes 5\n'
        wanted = (
            f"frame {self.list}\n{TABLE}last\n{TABLE}get key:bob\n      \"bob\": votes 5\nlist\n      \"bob\": votes 5\n"
            f"list key:bob\n      \"bob\": votes 5\ndump\n{rows}dump {out}\n      2 keys written to {out}\nstate\n      rules 1\n"
            f"      height 1\n      keys 2\n      programs 1\n      frame-limit 67108864\n      frame-gas none\n      brief 0\n"
            f"      digest {DIGEST}\n"
        )
        self.assertEqual((status, output, faults), (0, wanted, ""))
        asked = ["last", f"get {BOB}", f"list {'0' * 64} 1024", f"list {BOB} 1024", "dump", "dump", "state", "q"]
        self.assertEqual(self.logged()[-len(asked):], asked)
        self.assertEqual(out.read_text(encoding="utf-8"), f"rvblock 2\ngas 1\nstore {ALICE} -\nstore {BOB} 0500000000000000\n")

    def test_settings(self) -> None:
        called("session", "--store", "F", "--workers", "2", "--frame-limit", "5", "--frame-gas", "0", "--brief", "--state")
        self.assertEqual(self.logged()[0], "chain --workers 2 --frame-limit 5 --frame-gas 0 --store F --digest --brief")

    def test_messages(self) -> None:
        refused, missing = self.write("b.list", 'program a a.elf\ncall a 9 "x"\n'), self.write("c.list", "program a b.elf\n")
        self.write("refused.block", "rvblock 1\nrefuse\n")
        self.write("died.block", "rvblock 1\ndie\n")
        folder = self.folder
        for words, message in {
            (f"{folder}/refused.block",): f"{folder}/refused.block: refused block 3 BadLine 2",
            (f"{folder}/died.block",): f"{folder}/died.block: rvstm: store Busy 1",
            (f"{folder}/none.list",): f"{folder}/none.list: No such file or directory",
            (missing,): f"{folder}/b.elf: No such file or directory",
            (self.write("d.list", "call\n"),): f"{folder}/d.list, line 1: call: a program's name, the gas and the input follow it",
            (self.write("e.list", "storage \0\n"),): f"{folder}/e.list, line 1: \\x00: a name has no zero byte",
            (refused, "--dump", f"{folder}/no/out"): f"{folder}/no/out: No such file or directory",
        }.items():
            with self.subTest(message):
                status, _, faults = called("session", *words)
                self.assertEqual((status, faults), (1, f"session: {message}\n"))

    def test_wrong_command_lines(self) -> None:
        for words, message in {
            ("--write",): "session: --write: it needs --replay",
            ("--replay", "x", "a.list"): "session: --replay: its frames are those of the folder, so no LIST may be given",
            ("--get", "bob"): "rvstm-tools session: error: argument --get: bob: not bytes in hex",
            ("--get", "ab" * 33): f"rvstm-tools session: error: argument --get: {'ab' * 33}: a key has at most 32 bytes, and this is 33",
            ("--list", "row:accounts:bob"): "rvstm-tools session: error: argument --list: row:accounts:bob: the name of a table has",
            ("--get",): "rvstm-tools session: error: argument --get: expected one argument",
            ("--frame-gas", "1e6"): "rvstm-tools session: error: argument --frame-gas: 1e6: a setting is a number of 0 to 9999999999",
            ("--workers", "33"): "rvstm-tools session: error: argument --workers: invalid choice: 33",
            ("--workers", "two"): "rvstm-tools session: error: argument --workers: invalid int value: 'two'",
            ("--program", "x", "--preview"): "rvstm-tools session: error: argument --preview: not allowed with argument --program",
        }.items():
            with self.subTest(words):
                status, output, faults = called("session", *words)
                self.assertEqual((status, output), (2, ""))
                self.assertTrue(faults.splitlines()[-1].startswith(message), faults)


class OfTypedLines(WithChain):
    def test_each_request(self) -> None:
        name = hashlib.sha256(b"file").hexdigest()
        dump = self.write("dump file", "rvblock 1\n")
        typed = (
            f"frame {self.list}\ntry {self.list}\nget key:bob\nlist\nlist key:bob 1\nlast\n# a comment\n\nprogram {self.folder}/a.elf\n"
            f'forget {self.folder}/a.elf\nforget {name}\nbegin "{dump}" 7 {DIGEST}\nbegin "{dump}"\nq\nnonsense\n'
        )
        status, output, faults = called_with(typed, "session")
        self.assertEqual((status, faults), (0, ""))
        row = '      "bob": votes 5\n'
        self.assertTrue(output.startswith(
            f"{TABLE}{TABLE}{row}{row}{row}      there may be more: list {BOB[:-1]}1\n{TABLE}      {'cd' * 32}\n      {name}\n"
        ), output)
        log = self.logged()
        for line in (f"try {len(BLOCK)}", f"list {BOB} 1", f"begin 7 {DIGEST} 10", f"begin 0 {'0' * 64} 10", f"forget {name}"):
            self.assertIn(line, log)

    def test_blocks(self) -> None:
        """By one line, and by several between `block` and `run`. The program is sent before its block, and named by its hash."""
        name, store, program = "cd" * 32, f"store {BOB} 0400000000000000\n", "program 4\nfile\n"
        head = f"rvblock 2\ngas 3\nprogram 0 {name}\n"
        self.write("b.list", "rules 3\nprogram b a.elf\nshape key:bob votes:u64\n")
        for typed, output, blocks in (
            ("call b 9 key:bob", TABLE, [program, f"{head}call 0 9 {BOB}\n"]),
            (f"call {name} 9", TABLE, [f"{head}call 0 9 -\n"]),
            (f"program {self.folder}/a.elf\ncall a 9 07", f"      {name}\n{TABLE}", [program, program, f"{head}call 0 9 07\n"]),
            ("store key:bob u64:4", '      "bob": votes 5\n', [f"rvblock 2\ngas 3\n{store}"]),
            ("block\nstore key:bob u64:4\ncall b 9 07\ncall b 8\nrun", TABLE, [program, f"{head}{store}call 0 9 07\ncall 0 8 -\n"]),
            ("block\ncall b 9\nblock\ncall b 8\nrun", f"      dropped calls and keys: 1\n{TABLE}", [program, program, f"{head}call 0 8 -\n"]),
        ):
            with self.subTest(typed):
                self.log.unlink(missing_ok=True)
                self.assertEqual(called_with(f"{typed}\n", "session", "--shapes", f"{self.folder}/b.list"), (0, output, ""))
                sent = re.sub("^(state|frame .*|get .*|q|chain .*)\n", "", self.log.read_text(encoding="utf-8"), flags=re.M)
                self.assertEqual(sent, "".join(blocks))

    def test_a_block_that_is_not_run(self) -> None:
        wanted = (1, "", "session: the last block was not run: `run` is missing\n")
        self.assertEqual(called_with(f"block\nstore key:bob 07\ncall {'cd' * 32} 9\n", "session"), wanted)

    def test_a_key_that_lists_say_otherwise_is_a_warning(self) -> None:
        path = self.write("b.list", f"shape row:acct[account] u64\n{LIST}")
        wanted = "warning: session: row:acct:al: a text, and its shape has an account there; the key of the account is row:acct:key:al\n"
        self.assertEqual(called_with(f"frame {path}\nget row:acct:al\nget row:acct:key:al\n", "session")[::2], (0, wanted))
        self.assertEqual(called("session", path, "--get", "row:acct:al")[::2], (0, wanted))

    def test_help_names_each_request(self) -> None:
        output = called_with("help\n", "session")[1]
        words = ["frame", "try", "call", "store", "block", "run", "last", "get", "list", "dump", "begin", "state", "program", "programs", "forget", "help", "q"]
        self.assertEqual([line.split()[0] for line in output.splitlines()], words)

    def test_wrong_lines(self) -> None:
        """Each is reported, and the next one is read. The status is 1."""
        for line, message in {
            "what": "what: not a request; `help` lists them",
            "get": "the request is `get KEY`",
            "state now": "the request is `state`",
            "list key:a 1025": "1025: COUNT is a number of 1 to 1024",
            "list key:a 1 2": "the request is `list [FROM] [COUNT]`",
            "begin y -1 x": "x: a digest is 64 digits in hex, in small letters",
            f"begin y 10000000000": "10000000000: HEIGHT is a number of 0 to 9999999999",
            "frame nowhere.list": "nowhere.list: No such file or directory",
            "forget nothing": "nothing: No such file or directory",
            'get "a': '"a: a text has a quote at each end, and a blank before and after it',
            "programs": "refused block 3 BadLine 2",
            "get \udcff": "not UTF-8",
            "frame a\0.list": "a\\x00.list: a path has no zero byte",
            "call b": "the request is `call NAME GAS [WORD..]`",
            "call b 9": "b: no program of a list, and no file NAME.elf of a request `program`; a hash may be in its place",
            f"call {'cd' * 32} 0": "0: gas is a number of 1 to 10000000",
            "store": "the request is `store KEY [WORD..]`",
            f"store key:b {'00' * 65}": f"{'00' * 65}: a value under rules 1 has at most 64 bytes, and this is 65",
            "run": "run: `block` begins a block",
        }.items():
            with self.subTest(line):
                status, output, faults = called_with(f"{line}\nget key:bob\n", "session")
                self.assertEqual((status, output, faults), (1, '      "bob": 0500000000000000  5\n', f"session: {message}\n"))

    def test_bytes_that_are_no_text(self) -> None:
        with mock.patch("sys.stdin", io.TextIOWrapper(io.BytesIO(b"get \xff\nget key:bob\n"), encoding="utf-8")):
            self.assertEqual(called("session"), (1, '      "bob": 0500000000000000  5\n', "session: not UTF-8\n"))

    def test_lines_that_are_not_met(self) -> None:
        """A frame compares the lines of its list; one that is tried changes no storage, so only those of its calls are compared."""
        path = self.write("b.list", f"{LIST}expect gas at most 8\nstorage\nexpect key:bob u64:6\n")
        missed, keys = (f"line {number}: expect" for number in (6, 8))
        for word, wanted in ("frame", [missed, keys]), ("try", [missed]):
            status, output, faults = called_with(f"{word} {path}\n", "session")
            self.assertEqual((status, re.findall("line [0-9]+: expect", output), faults), (1, wanted, ""))

    def test_blocks_of_a_list(self) -> None:
        """Each is a frame. Only a list of one block can be tried."""
        path = self.write("b.list", "program a a.elf\nstore key:1 01\nblock\nstore key:1 02\n")
        status, output, faults = called_with(f"frame {path}\ntry {path}\n", "session")
        self.assertEqual((status, faults), (1, f"session: {path}: only a list of one block can be tried, and this has 2\n"))
        self.assertEqual([line for line in output.splitlines() if line.startswith("block")], ["block 0", "block 1"])
        self.assertEqual([line for line in self.logged() if line.startswith("store")], [f"store {'0' * 63}1 01", f"store {'0' * 63}1 02"])

    def test_a_session_that_writes_more_than_its_answers(self) -> None:
        text = self.program.read_text(encoding="utf-8")
        self.program.write_text(text.replace("            break\n", "            sys.exit(print('0'))\n"), encoding="utf-8")
        status, output, faults = called("session", "--state")
        self.assertEqual((status, output[:6], faults), (1, "state\n", "session: the session wrote more than its answers: b'0\\n'\n"))

    def test_a_session_that_does_not_begin(self) -> None:
        self.program.write_text("#!/bin/sh\necho rvstm: store Busy 1 >&2\nexit 1\n", encoding="utf-8")
        self.assertEqual(called_with("state\n", "session"), (1, "", "session: rvstm: store Busy 1\n"))

    def test_completion(self) -> None:
        self.write("b.elf", "")
        with Session(self.program) as session:
            client = Client(session, View())
            list(client.dump())
            client.take_list(Path(self.list), lists.read_list(self.list))
            completion = Completion(client)
            for before, word, wanted in (
                ("", "p", ["program ", "programs"]),
                ("get ", "key:", ["key:alice", "key:bob"]),
                ("call ", "a", ["a "]),
                ("call a ", "a", []),
                ("state ", "", []),
                ("what ", "", []),
                ("program ", f"{self.folder}/", [f"{self.folder}/{name}" for name in ("a.elf", "a.list", "b.elf", "log", "program")]),
            ):
                with self.subTest(before + word):
                    self.assertEqual(list(completion.candidates(before, word)), wanted)


class OfReplays(WithChain):
    def setUp(self) -> None:
        super().setUp()
        self.frames = self.folder / "frames"
        self.frames.mkdir()
        self.at_height(0)
        self.write("frames/c.elf", b"other")
        self.write("frames/1.frame", "rvblock 1\n")
        self.write("frames/2.block", "rvblock 1\nrefuse\n")

    def at_height(self, height: int) -> None:
        text = self.program.read_text(encoding="utf-8")
        self.program.write_text(re.sub(r"height \d+", f"height {height}", text), encoding="utf-8")

    def test_a_session_that_has_frames(self) -> None:
        """It is refused before a program or a frame is sent."""
        self.at_height(7)
        message = "session: the session is at height 7: a replay begins a new one\n"
        self.assertEqual(called("session", "--replay", str(self.frames), "--write"), (1, "", message))
        self.assertEqual(self.logged(), ["chain --digest", "state"])

    def test_digests_are_written_and_compared(self) -> None:
        status, output, faults = called("session", "--replay", str(self.frames), "--write")
        wanted = f"{self.frames}/1.frame: ok 135, digest {DIGEST}\n{self.frames}/2.block: refused block 3 BadLine 2, digest {DIGEST}\n"
        self.assertEqual((status, output, faults), (0, wanted, ""))
        self.assertEqual((self.frames / "2.block.digest").read_text(encoding="utf-8"), f"{DIGEST}\n")
        self.assertEqual(called("session", "--replay", str(self.frames)), (0, output, ""))
        self.assertEqual(self.logged()[:5], ["chain --digest", "state", "program 5", "other", "frame 10"])

    def test_a_list(self) -> None:
        """Its program is handed in, and its shapes are those of what is asked for afterwards."""
        for path in self.frames.iterdir():
            path.unlink()
        self.write("frames/a.elf.old", b"")
        self.write("frames/a.list", LIST.replace("a.elf", "../a.elf"))
        status, output, faults = called("session", "--replay", str(self.frames), "--write", "--get", "key:bob")
        self.assertEqual((status, output.splitlines()[-1], faults), (0, '      "bob": votes 5', ""))
        self.assertEqual(self.logged()[:5], ["chain --digest", "state", "program 4", "file", f"frame {len(BLOCK)}"])

    def test_messages(self) -> None:
        called("session", "--replay", str(self.frames), "--write")
        place = self.frames / "1.frame.digest"
        for text, message in (
            ("cd" * 32, f"{self.frames}/1.frame: answered `ok LENGTH`, and the digest is {DIGEST}; {place} has {'cd' * 32}"),
            ("no digest", f"{place}: a digest is 64 digits in hex, in small letters"),
            (None, f"{place}: not there; --write makes it"),
        ):
            with self.subTest(message):
                place.unlink()
                if text:
                    place.write_text(text, encoding="utf-8")
                status, output, faults = called("session", "--replay", str(self.frames))
                self.assertEqual((status, output), (1, ""))
                self.assertRegex(faults, f"^session: {message}\n$".replace("LENGTH", "[0-9]+"))
                place.touch()

    def test_a_folder_without_frames(self) -> None:
        folder = self.folder / "empty"
        folder.mkdir()
        message = f"session: {folder}: no file in it ends with .frame or .block or .list\n"
        self.assertEqual(called("session", "--replay", str(folder)), (1, "", message))
