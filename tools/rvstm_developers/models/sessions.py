"""What a session of `rvstm chain` answers: of each frame what `rvstm seq` prints for it over the storage so far."""

import hashlib
import tempfile
from dataclasses import dataclass
from pathlib import Path
from typing import NamedTuple

from rvstm_developers.models import inputs
from rvstm_developers.models.inputs import Fault
from rvstm_tools.errors import UserError
from rvstm_tools.programs.running import Runner
from rvstm_tools.sessions import answers, frames, requests
from rvstm_tools.sessions.answers import Answer, Done, Refusal, State
from rvstm_tools.sessions.processes import Settings
from rvstm_tools.sessions.requests import Request, Word
from rvstm_tools.texts import blocks
from rvstm_tools.texts.keys import Key, Storage

HIGHEST = 9_999_999_999
LONGEST_PROGRAM = 131_072
NO_DIGEST = bytes(32)  # the digest of a new session that keeps one

NO_PROGRAM = answers.refused(b"frame NoProgram 3")
TOO_LONG_FRAME = answers.refused(b"frame TooLong 4")
TOO_MUCH_GAS = answers.refused(b"frame TooMuchGas 5")
OLDER_RULES = answers.refused(b"frame OlderRules 2")
NOT_A_DUMP = answers.refused(b"frame NotADump 6")
NO_FRAME = answers.refused(b"frame NoFrame 7")
OTHER_DIGEST = answers.refused(b"frame OtherDigest 8")
TOO_HIGH = answers.refused(b"frame TooHigh 9")
TOO_LONG_FILE = answers.refused(b"file TooLong 3")


class Seq(NamedTuple):
    """What `rvstm seq` makes of a block: the result, or the words of its refusal."""

    result: bytes
    refusal: bytes


class AskedBlock(NamedTuple):
    """A block that `rvstm seq` is asked for, and whether it finds no program."""

    block: bytes
    is_without_programs: bool


Known = dict[AskedBlock, Seq]
"""What `seq` printed of blocks. Models may share it: programs are named by their hashes, so a block has one result."""


@dataclass(frozen=True)
class Left:
    rules: int
    storage: Storage


@dataclass(frozen=True)
class Ran:
    """The answer to a frame, and what it leaves; None if it is refused."""

    answer: Answer
    left: Left | None = None


class SessionOutcome(NamedTuple):
    output: bytes
    errors: bytes
    status: int


class SessionModel:
    """A session in Python. Its own folder has the programs under their names, and so `seq` finds them there."""

    def __init__(self, runner: Runner, settings: Settings = Settings(), known: Known | None = None) -> None:
        self.runner = runner
        self.settings = settings
        self.known = {} if known is None else known
        self.place = tempfile.TemporaryDirectory(prefix="session-")
        self.folder, self.empty = Path(self.place.name) / "programs", Path(self.place.name) / "empty"
        self.folder.mkdir()
        self.empty.mkdir()
        self.store: Storage = {}
        self.rules = 1
        self.height = 0
        self.digest: bytes | None = NO_DIGEST if settings.digest else None
        self.programs: set[str] = set()
        self.last: Answer | None = None

    def answer(self, request: Request) -> Answer:
        """The answer to a request. After it the session is as the request leaves it."""
        match Word(request.word):
            case Word.FRAME:
                return self.answer_frame(request.body)
            case Word.TRY:
                return self.run(request.body).answer
            case Word.LAST:
                return self.last or NO_FRAME
            case Word.PROGRAM:
                return self.answer_program(request.body)
            case Word.FORGET:
                return self.answer_forget(request.fields[0].decode())
            case Word.PROGRAMS:
                return Done("".join(f"{name}\n" for name in sorted(self.programs)).encode())
            case Word.GET:
                return self.answer_get(key_of(request.fields[0]))
            case Word.LIST:
                return self.answer_list(key_of(request.fields[0]), int(request.fields[1]))
            case Word.DUMP:
                return Done(frames.dump_of(self.rules, self.store))
            case Word.BEGIN:
                return self.answer_begin(request)
            case Word.STATE:
                return Done(answers.state_text(self.state()))
        raise ValueError(f"a session does not answer {request.word!r}")

    # ---- frames

    def answer_frame(self, block: bytes) -> Answer:
        ran = self.run(block)
        if ran.left:
            self.rules, self.store = ran.left.rules, ran.left.storage
        if self.height < HIGHEST:
            self.height, self.last = self.height + 1, ran.answer
            if self.digest is not None:
                self.digest = hashlib.sha256(self.digest + ran.answer.text()).digest()
        return ran.answer

    def run(self, block: bytes) -> Ran:
        """The answer to a frame, and what it would leave."""
        fault = self.fault_of(block)
        if fault:
            return Ran(fault)
        result, refusal = self.seq(frames.put_over(block, self.store), self.folder)
        if refusal:
            raise UserError(f"seq refuses a block over a storage: {refusal!r}")
        receipts = frames.receipts_of(result, is_brief=self.settings.brief)
        return Ran(Done(receipts), Left(frames.rules_of(block), frames.stored_in(result)))

    def fault_of(self, block: bytes) -> Refusal | None:
        if self.height >= HIGHEST:
            return TOO_HIGH
        if len(block) > self.settings.frame_limit:
            return TOO_LONG_FRAME
        return self.text_fault(block) or self.fault_of_sound(block)

    def fault_of_sound(self, block: bytes) -> Refusal | None:
        fields = [line.split() for line in frames.lines_of(block)]
        gas = sum(int(field[2]) for field in fields if field[0] == b"call")
        if self.settings.frame_gas is not None and gas > self.settings.frame_gas:
            return TOO_MUCH_GAS
        if frames.rules_of(block) < self.rules:
            return OLDER_RULES
        is_here = all(field[2].decode() in self.programs for field in fields if field[0] == b"program")
        return None if is_here else NO_PROGRAM

    def text_fault(self, block: bytes) -> Refusal | None:
        """The fault of a block file's text. No file that it names is opened, and no call is run."""
        _, refusal = self.seq(frames.PROGRAM.sub(rb"\1missing", block), self.empty)
        if refusal == b"block Memory 8":
            raise UserError("memory for a block ran out")
        return answers.refused(refusal) if refusal.startswith(b"block ") else None

    def seq(self, block: bytes, folder: Path) -> Seq:
        asked = AskedBlock(block, folder == self.empty)
        if asked not in self.known:
            self.known[asked] = self.run_seq(block, folder)
        return self.known[asked]

    def run_seq(self, block: bytes, folder: Path) -> Seq:
        path = Path(self.place.name) / "block"
        path.write_bytes(block)
        printed = self.runner.run(["seq", str(path)], folder)
        if printed.refusal and not printed.refusal.startswith("rvstm: "):
            raise UserError(f"seq: {printed.refusal}")
        return Seq(printed.text.encode(), printed.refusal.removeprefix("rvstm: ").encode())

    # ---- programs

    def answer_program(self, file: bytes) -> Answer:
        if len(file) > LONGEST_PROGRAM:
            return TOO_LONG_FILE
        name = frames.name_of(file)
        if name not in self.programs:
            path = self.folder / name
            path.write_bytes(file)
            _, refusal = self.seq(blocks.text([name]).encode(), self.folder)
            if refusal:
                path.unlink()
                return answers.refused(refusal)
            self.programs.add(name)
        return Done(f"{name}\n".encode())

    def answer_forget(self, name: str) -> Answer:
        if name not in self.programs:
            return NO_PROGRAM
        self.programs.remove(name)
        (self.folder / name).unlink()
        return Done()

    # ---- the storage, and the state

    def answer_get(self, key: Key) -> Answer:
        value = self.store.get(key)
        return Done(b"absent\n" if value is None else f"value {blocks.field_of(value)}\n".encode())

    def answer_list(self, first: Key, count: int) -> Answer:
        keys = [key for key in sorted(self.store) if key >= first][:count]
        return Done(frames.store_lines({key: self.store[key] for key in keys}))

    def answer_begin(self, request: Request) -> Answer:
        """The answer to the request that puts a dump in place of the storage."""
        height, digest = request.fields
        fault = self.text_fault(request.body)
        if fault:
            return fault
        if any(line.startswith((b"program ", b"call ")) for line in frames.lines_of(request.body)):
            return NOT_A_DUMP
        if (digest == b"-") != (self.digest is None):
            return OTHER_DIGEST
        self.rules, self.store = frames.rules_of(request.body), frames.stored_in(request.body)
        self.height, self.last = int(height), None
        self.digest = None if digest == b"-" else bytes.fromhex(digest.decode())
        return Done()

    def state(self) -> State:
        given = self.settings
        counts = len(self.store), len(self.programs)
        return State(self.rules, self.height, *counts, given.frame_limit, given.frame_gas, given.brief, self.digest)

    # ---- a whole input

    def outcome(self, text: bytes) -> SessionOutcome:
        asked = inputs.requests_of(text)
        output = b"".join(self.answer(request).text() for request in asked.requests)
        if asked.fault is Fault.NONE:
            return SessionOutcome(output, b"", 0)
        return SessionOutcome(output + answers.refused(asked.fault).text(), b"rvstm: " + asked.fault, 1)


def key_of(field: bytes) -> Key:
    return Key(bytes.fromhex(field.decode()))
