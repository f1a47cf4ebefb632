"""Files of `rvstm chain --store FILE`: sessions over them, what each has to hold, and what stock SQLite reads in it."""

import hashlib
import io
import sqlite3
from collections.abc import Iterable, Mapping
from dataclasses import dataclass
from pathlib import Path
from random import Random
from typing import NamedTuple

from rvstm_developers import running, texts
from rvstm_developers.texts import TOP
from rvstm_tools.errors import UserError
from rvstm_tools.programs.pipes import Ended
from rvstm_tools.sessions import answers, frames, requests
from rvstm_tools.sessions.answers import Answer, Done, State
from rvstm_tools.sessions.processes import Session, Settings
from rvstm_tools.sessions.requests import Request, Word
from rvstm_tools.texts.blocks import CallLine
from rvstm_tools.texts.keys import Key, Storage, numbered_key

LOG = "-wal"  # what follows the name of a file in the name of its log
QUESTIONS = [Request(word) for word in (Word.STATE, Word.LAST, Word.PROGRAMS, Word.DUMP)]
QUESTIONS += [Request(Word.LIST, (requests.key_field(numbered_key(0)), b"1024"))]
NAMES = ("Busy 1", "HotJournal 2", "Unreadable 3", "NotASession 4", "OtherVersion 5", "OtherSettings 6", "Damaged 7", "Full 8", "Memory 9")
REFUSALS = {f"rvstm: store {name}\n".encode(): name for name in NAMES}
FAILURES = {f"failed store {name}\n".encode() for name in NAMES}
PLAIN = Settings(digest=True)
SECONDS_A_SESSION = 120
COUNTER = TOP / "examples/counter/counter.elf"
MANY_KEYS, MOST_LISTED = 10_000, 1024
FRAMES, KEYS_A_FRAME = 6, 100  # of a session whose file has each kind of row
NO_FRAME = answers.refused(b"frame NoFrame 7")


class Both(NamedTuple):
    """The bytes of a file and of its log; None of one that is not there."""

    file: bytes | None
    log: bytes | None


class StoredSession(NamedTuple):
    number: int
    version: int
    frame_limit: int
    frame_gas: int | None
    brief: int
    rules: int
    height: int
    digest: bytes


@dataclass(frozen=True)
class Rows:
    storage: Storage
    programs: dict[bytes, bytes]
    session: StoredSession | None
    answer: bytes | None

    def are_none(self) -> bool:
        """Whether there is no row, as before a first session has begun."""
        return not self.storage and not self.programs and self.session is None and self.answer is None


@dataclass(frozen=True)
class ReadFile:
    rows: Rows
    check: str


@dataclass(frozen=True)
class WrittenAnswers:
    """The answers of an output that may be cut, and what there is of the next one."""

    answers: list[Answer]
    begun: bytes


def log_of(path: Path) -> Path:
    return Path(f"{path}{LOG}")


def words_of(rvstm: Path, path: Path, settings: Settings = PLAIN) -> list[str | Path]:
    return [rvstm, *settings._replace(store=str(path)).words()]


def run(
    rvstm: Path, path: Path, asked: Iterable[Request] = QUESTIONS, settings: Settings = PLAIN,
    environment: Mapping[str, str] | None = None, user: int | None = None,
) -> Ended:
    """What a session over a file writes that is given some requests and ends then. `user` is the one who runs it."""
    return running.run(words_of(rvstm, path, settings), Path(), requests.text_of(asked), SECONDS_A_SESSION, environment, user)


def refusal_of(run: Ended) -> str | None:
    """The name and number of a refusal of the file with nothing before it; None if there is none."""
    return REFUSALS.get(run.errors) if run.status == 1 and not run.output else None


def answers_of(text: bytes) -> WrittenAnswers:
    """The answers of an output that may be cut."""
    lines, place = io.BytesIO(text), 0
    found: list[Answer] = []
    while (answer := answers.next_answer(lines)) is not None:
        found.append(answer)
        place += len(answer.text())
    return WrittenAnswers(found, text[place:])


class NeedySession(Session):
    def need(self, request: Request) -> Answer:
        answer = self.ask(request)
        if answer is None:
            raise UserError(f"a session does not answer {request.text()[:60]!r}: {self.end().said()}")
        return answer

    def asked(self) -> list[Answer]:
        return [self.need(question) for question in QUESTIONS]

    def held(self) -> bytes:
        return b"".join(answer.text() for answer in self.asked())


class Plain(NeedySession):
    """A session without a file, which has what one with a file has to have."""

    def __init__(self, rvstm: Path, settings: Settings = PLAIN) -> None:
        super().__init__(rvstm, settings._replace(digest=True, workers=None))


class OverFile(NeedySession):
    def __init__(self, rvstm: Path, path: Path, settings: Settings = PLAIN, *, is_as_here: bool = False) -> None:
        super().__init__(rvstm, settings._replace(store=str(path)), is_as_here=is_as_here)


# ---- a file beside its log


def contents(path: Path) -> Both:
    return Both(*(place.read_bytes() if place.is_file() else None for place in (path, log_of(path))))


def put(path: Path, both: Both) -> None:
    for place, content in zip((path, log_of(path)), both):
        place.unlink(missing_ok=True)
        if content is not None:
            place.write_bytes(content)


def kept(prefix: str, path: Path) -> Path:
    return texts.kept_folder(prefix, [place for place in (path, log_of(path)) if place.is_file()])


def copied(path: Path, folder: Path) -> Path:
    copy = folder / "copy"
    put(copy, contents(path))
    Path(f"{copy}-shm").unlink(missing_ok=True)
    return copy


# ---- what stock SQLite reads


def read_by_sqlite(path: Path) -> ReadFile:
    """What stock SQLite reads in a file. It changes the file: it may fold the log into it, and remove the log."""
    base = sqlite3.connect(path, timeout=0)
    try:
        check = "; ".join(line for line, in base.execute("PRAGMA integrity_check"))
        storage: Storage = {Key(key): value for key, value in base.execute("SELECT * FROM storage")}
        programs: dict[bytes, bytes] = dict(base.execute("SELECT * FROM program"))
        session = base.execute("SELECT * FROM session ORDER BY id").fetchone()
        lines = [line + body for _, line, body in base.execute("SELECT * FROM answer ORDER BY id")]
    finally:
        base.close()
    found = None if session is None else StoredSession(*session)
    return ReadFile(Rows(storage, programs, found, b"".join(lines) if lines else None), check)


def changed(path: Path, statements: str) -> None:
    """Runs statements, with semicolons between them, in stock SQLite."""
    base = sqlite3.connect(path)
    base.executescript(statements)
    base.close()


def answers_by(rows: Rows) -> bytes:
    """The answers to the questions of a session over a file with these rows."""
    one = rows.session
    assert one is not None
    counts = len(rows.storage), len(rows.programs)
    state = State(one.rules, one.height, *counts, one.frame_limit, one.frame_gas, bool(one.brief), one.digest)
    names = b"".join(name.hex().encode() + b"\n" for name in sorted(rows.programs))
    first = {key: rows.storage[key] for key in sorted(rows.storage)[:MOST_LISTED]}
    last = NO_FRAME.text() if rows.answer is None else rows.answer
    others = (Done(names), Done(frames.dump_of(one.rules, rows.storage)), Done(frames.store_lines(first)))
    return Done(answers.state_text(state)).text() + last + b"".join(answer.text() for answer in others)


def difference_of_rows(path: Path, held: bytes, folder: Path) -> str | None:
    """How what stock SQLite reads in a copy of a file differs from the answers to the questions, or None."""
    try:
        read = read_by_sqlite(copied(path, folder))
    except (sqlite3.Error, ValueError, TypeError) as error:
        return f"sqlite3: {error}"
    if read.check != "ok":
        return f"integrity_check: {read.check}"
    if any(hashlib.sha256(file).digest() != name for name, file in read.rows.programs.items()):
        return "a program has another name"
    return None if answers_by(read.rows) == held else "sqlite3 reads other rows"


# ---- a session whose file has each kind of row


def frame(choice: Random, keys: int) -> Request:
    """A frame that sets some random keys and runs nothing."""
    store = {Key(choice.randbytes(32)): choice.randbytes(choice.choice((0, 8, 64))) for _ in range(keys)}
    return Request(Word.FRAME, (), texts.HEADS[0].encode() + frames.store_lines(store))


def first_requests(choice: Random) -> list[Request]:
    """The requests of such a session: a program, some hundred keys, and a frame with calls."""
    file = COUNTER.read_bytes()
    calls = texts.block_text([frames.name_of(file)], {}, [CallLine(0, 5_000, b"")] * 9).encode()
    keys = (frame(choice, KEYS_A_FRAME) for _ in range(FRAMES))
    return [Request(Word.PROGRAM, (), file), *keys, Request(Word.FRAME, (), calls)]


def great_begin(choice: Random) -> Request:
    store = {Key(choice.randbytes(32)): choice.randbytes(choice.choice((8, 40, 64))) for _ in range(MANY_KEYS)}
    return requests.begin(7, b"\x55" * 32, frames.dump_of(1, store))


def made(rvstm: Path, path: Path, asked: Iterable[Request]) -> bytes:
    """Makes a file: a session is given some requests, and is killed then. Returns what it has to hold."""
    with OverFile(rvstm, path) as session, Plain(rvstm) as plain:
        for request in asked:
            if session.ask(request) != plain.ask(request):
                raise UserError("a session over a file answers otherwise than one without")
        return plain.held()
