"""Readers of strangers' files take changed ones: each is read or refused, within a second and in little memory.

CHANGED_INPUTS=2000 python3 -m unittest tests.test_changed tries so many of each; SEED repeats what was drawn.
"""

import io
import lzma
import os
import random
import resource
import shutil
import subprocess
import unittest
from collections.abc import Callable
from pathlib import Path
from random import Random
from typing import cast

from rvstm_tools.errors import UserError
from rvstm_tools.exploring import saved
from rvstm_tools.exploring.descriptions import Description
from rvstm_tools.exploring.folders import Folder
from rvstm_tools.exploring.saved import SavedCall
from rvstm_tools.exploring.searches import Limits
from rvstm_tools.programs.elf import ElfFile
from rvstm_tools.releases import archives, verifying
from rvstm_tools.releases.archives import File
from rvstm_tools.sessions import replays, typed
from rvstm_tools.sessions.answers import Done
from rvstm_tools.sessions.clients import Client, read_frames
from rvstm_tools.sessions.processes import Session
from rvstm_tools.sessions.requests import Request, Word
from rvstm_tools.texts import dumps, lists, results
from rvstm_tools.texts.views import View
from unit.helpers import InFolder
from unit.test_elf import elf_file
from unit.test_releases import package

COUNT = int(os.environ.get("CHANGED_INPUTS", "60"))
SEED = int(os.environ.get("SEED", str(random.randrange(1 << 32))))
MOST_SECONDS, MOST_MEMORY = 1.0, 1 << 32
KEY = "0" * 64
LIST = """\
rules 3
program a a.elf
shape row:ab n:u64
store row:ab:key:bob u64:7
store key:x "text"
call a 900 u8:1 account:bob i64:-1
"""
RESULT = f"call 0 returned gas 9 pc 00010000 out 07\nregs{' 00000000' * 32}\nwrite 0 {KEY} 05\nstore {KEY} 05\nend\n"
DUMP = f"rvblock 2\ngas 3\nstore {KEY} 05\n"
TYPED = f'frame a.list\ntry "a.block"\nget key:bob\nlist {KEY} 5\nforget {KEY}\nbegin a.dump 7 {KEY}\nlast\nstate\n'
EXPLORED = """\
program a a.elf
draw n 0..9
draw who alice bob
draw data bytes:0..4
call a 900 u64:{n} key:{who} hex:00{data}
"""
FOUND = [SavedCall(5, {"n": "7", "who": "bob", "data": "0102"})]


def changed(choice: Random, data: bytes) -> bytes:
    """A copy with bytes changed, cut or doubled, one to three times."""
    for _ in range(choice.randint(1, 3)):
        start = choice.randrange(len(data) + 1)
        end = min(len(data), start + choice.choice((1, 1, 2, 4, 64, len(data))))
        same = bytes([choice.choice(b"\0\xff\n -09")]) * (end - start)
        data = data[:start] + choice.choice((choice.randbytes(end - start), same, b"", data[start:end] * 2)) + data[end:]
    return data


def processor_seconds() -> float:
    """Of this process and of those that it waited for: it does not depend on what else the machine does."""
    return sum(os.times()[:4])


class FakeSession:
    ANSWERS: dict[bytes, str] = {Word.GET: "absent\n", Word.FRAME: RESULT, Word.TRY: RESULT, Word.LAST: RESULT}

    def ask(self, request: Request) -> Done:
        return Done(self.ANSWERS.get(request.word, "").encode())


class ChangedFiles(InFolder):
    def setUp(self) -> None:
        super().setUp()
        before = resource.getrlimit(resource.RLIMIT_AS)
        resource.setrlimit(resource.RLIMIT_AS, (MOST_MEMORY, before[1]))
        self.addCleanup(resource.setrlimit, resource.RLIMIT_AS, before)
        self.write("a.elf", elf_file())
        for name, text in {"a.list": LIST, "a.block": f"rvblock 1\nprogram 0 a.elf\ncall 0 9 {KEY}\n", "a.dump": DUMP}.items():
            self.write(name, text)
        self.addCleanup(os.chdir, os.getcwd())
        os.chdir(self.folder)

    def tries(self, read: Callable[[str], object], valid: bytes, pack: Callable[[bytes], bytes] = bytes) -> None:
        """Reads a valid file and changed ones, which are packed after the change."""
        choice = Random(SEED)
        read(self.write("changed", pack(valid)))
        for number in range(COUNT):
            data = changed(choice, valid)
            path, began = self.write("changed", pack(data)), processor_seconds()
            try:
                read(path)
            except (UserError, OSError):
                pass
            except Exception as error:
                raise AssertionError(f"SEED={SEED}, input {number}: {error!r} for {data!r}") from error
            seconds = processor_seconds() - began
            self.assertLess(seconds, MOST_SECONDS, f"SEED={SEED}, input {number}: {data!r}")

    def test_programs(self) -> None:
        def read(path: str) -> None:
            file = ElfFile(path)
            for address in file.words():
                file.function_at(address)

        self.tries(read, elf_file())

    def test_lists_results_and_dumps(self) -> None:
        self.tries(lambda path: [block.text() for block in lists.read_list(path).blocks], LIST.encode())
        self.tries(results.read_storage, RESULT.encode())
        self.tries(dumps.read_dump, DUMP.encode())

    def test_lines_of_a_session(self) -> None:
        def read(path: str) -> None:
            client = Client(cast(Session, FakeSession()), View())
            source = io.TextIOWrapper(io.BytesIO(Path(path).read_bytes()), encoding="utf-8", errors="surrogateescape")
            for line in typed.typed_lines(source, is_terminal=False):
                try:
                    list(typed.answer_lines(client, line))
                except (UserError, OSError):
                    pass

        self.tries(read, TYPED.encode())
        for valid in (Path("a.block"), Path("a.list")):
            client = Client(cast(Session, FakeSession()), View())
            name = f"b{valid.suffix}"
            self.tries(lambda path: list(client.run(Word.FRAME, read_frames(Path(shutil.move(path, name))))), valid.read_bytes())
        self.tries(lambda path: replays.digest_in(Path(path)), f"{KEY}\n".encode())

    def test_folders_of_explorations(self) -> None:
        description = Description(self.write("a.explore", EXPLORED))
        folder, limits = Folder(self.folder / "kept", description), Limits(900, 9, None, 1)
        folder.keep(limits, 3, FOUND)

        def read(path: str) -> None:
            shutil.copy(path, self.folder / "kept/explored.json")
            state = folder.earlier(limits)
            folder.first(state)
            for call in saved.restored(description, state.found or []) if state else []:
                call.kind.data(call.values)

        self.tries(read, (self.folder / "kept/explored.json").read_bytes())

    def test_packages(self) -> None:
        """The files of a package that is read are those that GNU's tar finds."""
        def read(path: str) -> None:
            data = Path(path).read_bytes()
            verifying.parts_of(path, data)
            is_debian = data.startswith(archives.AR_HEAD)
            packed, how = (list(archives.ar_members(data))[-1].data, "-J") if is_debian else (data, "-z")
            done = subprocess.run(["tar", "-t", how, "--quoting-style=literal"], input=packed, capture_output=True, check=False)
            paths = [os.fsdecode(line.removeprefix(b"./")) for line in done.stdout.splitlines()]
            found = {path for path in paths if not path.endswith("/")}
            self.assertEqual((done.returncode, found), (0, archives.files_in(data).keys()))

        tar = archives.tar_of({"usr/bin/rvstm": File(b"\x7fELF and more", 0o755), "usr/share/a": File(b"")}, 5)
        packs: list[Callable[[bytes], bytes]] = [archives.gzip_of, lambda data: package(lzma.compress(data, preset=0))]
        for pack in packs:
            self.tries(read, tar, pack)
            self.tries(read, pack(tar))
        self.tries(verifying.sums_of, f"{KEY}  rvstm\n{KEY}  a.deb\n".encode())

    @unittest.skipUnless(shutil.which("llvm-objcopy"), "there is no llvm-objcopy")
    def test_programs_of_64_bits(self) -> None:
        valid = Path(shutil.which("true") or "").read_bytes()
        self.tries(lambda path: verifying.bare(path, Path(path).read_bytes()), valid)
        table, count = int.from_bytes(valid[40:48], "little"), int.from_bytes(valid[60:62], "little")
        last = table + 64 * (count - 1) + 48  # says how the last section is aligned
        began = processor_seconds()
        with self.assertRaises(UserError):
            verifying.bare("far", valid[:last] + (1 << 31).to_bytes(8, "little") + valid[last + 8 :])
        self.assertLess(processor_seconds() - began, MOST_SECONDS)
