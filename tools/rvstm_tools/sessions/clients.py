"""A session as people use it: frames by the paths of their files, keys by the words of lists, and answers as lines."""

import re
from collections.abc import Iterator
from dataclasses import dataclass, replace
from pathlib import Path

from rvstm_tools import errors
from rvstm_tools.errors import UserError
from rvstm_tools.sessions import answers, frames, requests
from rvstm_tools.sessions.answers import Answer, Done, State
from rvstm_tools.sessions.blocks import TypedBlock
from rvstm_tools.sessions.frames import Named
from rvstm_tools.sessions.processes import Session
from rvstm_tools.sessions.requests import Request, Word
from rvstm_tools.testing import listed, reports, runs
from rvstm_tools.testing.listed import ListedTest
from rvstm_tools.texts import lists, results, tables, words
from rvstm_tools.texts.keys import KEY_LENGTH, Key, Storage
from rvstm_tools.texts.lists import ListFile
from rvstm_tools.texts.results import Receipt
from rvstm_tools.texts.views import View

HASH = re.compile("[0-9a-f]{64}")
MOST_KEYS = 1024  # of one answer to `list`
FIRST_KEY = Key(bytes(KEY_LENGTH))
NONE = "      none"


@dataclass(frozen=True)
class FrameFile:
    """A file of frames: a list of one or several, or a block file that names programs by their paths or hashes."""

    path: Path
    frames: list[Named]
    test: ListedTest | None = None  # of a list


def read_frames(path: Path) -> FrameFile:
    """The frames of a file, and their programs. Paths of programs are taken from the folder of the file."""
    if not lists.is_list(path):
        return FrameFile(path, [frames.named(path.read_bytes(), path.parent)])
    test = listed.read_test(path)
    for program in test.file.blocks[0].paths():
        (path.parent / program).read_bytes()  # a program that is missing is an error of its own file
    return FrameFile(path, [frames.named(block.text().encode(), path.parent) for block in test.file.blocks], test)


class Client:
    def __init__(self, session: Session, view: View) -> None:
        self.session = session
        self.view = view
        self.keys: set[Key] = set()  # those that answers had so far
        self.programs: dict[str, Path] = {}  # the files of programs by the names that calls give them
        self.rules = 1  # the highest of the lists that were read
        self.typed = TypedBlock(self)
        self.made: list[Receipt] = []  # what came of the calls of the last file of frames
        self.missed = 0  # how many lines `expect` of lists were not met

    def answer(self, request: Request) -> Answer:
        """The answer to a request. A session that ended before it is an error, with what it said."""
        answer = self.session.ask(request)
        if answer is None:
            ended = self.session.wait()
            raise UserError(ended.said() or f"the session ended with status {ended.status}")
        return answer

    def body(self, request: Request) -> bytes:
        """The bytes that answer a request. A refusal is an error."""
        answer = self.answer(request)
        if not isinstance(answer, Done):
            raise UserError(answer.said)
        return answer.body

    def state(self) -> State:
        return answers.state_of(self.body(Request(Word.STATE)))

    def key_of(self, word: str) -> Key:
        """The key of a word. One that is not as the lists have it is a warning."""
        errors.warn("session", self.view.doubts([word]))
        return words.key_of(word)

    # ---- requests, each with the lines of its answer

    def run(self, word: Word, file: FrameFile) -> Iterator[str]:
        """Hands in the programs of frames, and runs or tries them one after another. Last come the lines `expect` that are not met."""
        count, self.made = len(file.frames), []
        if word is Word.TRY and count > 1:
            raise UserError(f"{file.path}: only a list of one block can be tried, and this has {count}")
        if file.test:
            self.take_list(file.path, file.test.file)
        for number, frame in enumerate(file.frames):
            for program in frame.programs():
                self.body(program)
            lines = self.receipts(self.body(Request(word, (), frame.block)))
            yield from [*([f"block {number}"] if count > 1 else []), *lines]
        if file.test:
            yield from self._lines_of_misses(replace(file.test, storage=None) if word is Word.TRY else file.test)

    def _lines_of_misses(self, test: ListedTest) -> Iterator[str]:
        """Compares what came of the calls of a list with its lines `expect`. `same by N workers` is always met."""
        misses = list(runs.misses_of(test, self.made, self.storage, lambda part, workers: None))
        self.missed += len(misses)
        return reports.lines_of_misses(test, misses, {}, "")

    def take_list(self, path: Path, file: ListFile) -> None:
        """Keeps what a list says of keys and values, its programs and its rules. Nothing of it is run."""
        block = file.blocks[0]
        add_view(self.view, file.view)
        self.programs |= {name: path.parent / program.path for name, program in block.programs.items()}
        self.rules = max(self.rules, block.rules)

    def program_of(self, name: str) -> str:
        """The hash by which a frame names a program, which is handed in. `name` is that of a list or of a file, or the hash."""
        if HASH.fullmatch(name):
            return name
        if name not in self.programs:
            raise UserError(f"{name}: no program of a list, and no file NAME.elf of a request `program`; a hash may be in its place")
        return self.body(Request(Word.PROGRAM, (), self.programs[name].read_bytes())).decode().strip()

    def receipts(self, body: bytes) -> Iterator[str]:
        items = list(results.items_of(body.decode("ascii", "backslashreplace").splitlines(keepends=True)))
        for item in items:
            if isinstance(item, results.Receipt):
                self.keys |= item.changes.keys()
                self.made.append(item)
        return tables.table_lines(items, self.view, has_registers=False)

    def last(self) -> Iterator[str]:
        return self.receipts(self.body(Request(Word.LAST)))

    def get(self, key: Key) -> Iterator[str]:
        text = self.body(Request(Word.GET, (requests.key_field(key),))).decode()
        self.keys.add(key)
        if text == "absent\n":
            return iter([f"      {self.view.key(key)}: absent"])
        return self.rows(b"store %s %s" % (requests.key_field(key), text.removeprefix("value ").encode()))

    def list(self, first: Key, count: int = MOST_KEYS) -> Iterator[str]:
        """The first keys from one on, itself included."""
        body = self.body(Request(Word.LIST, (requests.key_field(first), b"%d" % count)))
        yield from self.rows(body)
        if body.count(b"\n") == count:
            last = bytes.fromhex(body.splitlines()[-1].split()[1].decode())
            yield f"      there may be more: list {next_key(last).hex()}"

    def rows(self, body: bytes) -> Iterator[str]:
        rows = dict(frames.stored_rows(body))
        self.keys |= rows.keys()
        return iter([f"      {self.view.key(key)}: {self.view.value(key, value)}" for key, value in rows.items()] or [NONE])

    def dump(self, out: Path | None = None) -> Iterator[str]:
        """The whole storage; or where it is written to, as `begin` takes it."""
        body = self.body(Request(Word.DUMP))
        if out is None:
            return self.rows(body)
        out.write_bytes(body)
        return iter([f"      {body.count(b'store '):,} keys written to {out}"])

    def storage(self) -> Storage:
        return frames.stored_in(self.body(Request(Word.DUMP)))

    def lines(self, word: Word) -> Iterator[str]:
        return iter([f"      {line}" for line in self.body(Request(word)).decode().splitlines()] or [NONE])

    def program(self, path: Path) -> Iterator[str]:
        self.programs[path.stem] = path
        return iter([f"      {self.program_of(path.stem)}"])

    def forget(self, name: str) -> Iterator[str]:
        self.body(Request(Word.FORGET, (name.encode(),)))
        return iter([f"      {name}"])

    def begin(self, height: int, digest: bytes, path: Path) -> Iterator[str]:
        self.body(requests.begin(height, digest, path.read_bytes()))
        return self.lines(Word.STATE)


def next_key(key: bytes) -> bytes:
    """The key after one; the first one after the last."""
    return ((int.from_bytes(key, "big") + 1) % (1 << 8 * KEY_LENGTH)).to_bytes(KEY_LENGTH, "big")


def add_view(view: View, other: View) -> None:
    """Adds what another list says of keys and values; of two shapes of one thing the later one holds."""
    view.names |= other.names
    view.of_keys |= other.of_keys
    view.of_tables |= other.of_tables
    view.rows |= other.rows
    view.long_tables |= other.long_tables
    view.inputs |= other.inputs
