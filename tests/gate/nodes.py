"""Nodes whose engine dies: frames that are sent again, from a dump and from a file, beside `rvstm seq` and hashlib; and the example
of a node that takes signed calls."""

import hashlib
import random
import shutil
import threading
import time
from collections.abc import Iterator
from contextlib import contextmanager
from dataclasses import dataclass, field
from functools import partial
from pathlib import Path

from gate.calls import command
from gate.outside import last_lines
from gate.runner import CONTRACTS, TOP, Case, Run, Tool, holds, same
from rvstm_developers.models.sessions import NO_DIGEST, SessionModel
from rvstm_tools.programs.running import Program
from rvstm_tools.sessions import answers, requests
from rvstm_tools.sessions import frames as texts
from rvstm_tools.sessions.answers import Answer
from rvstm_tools.sessions.kept import KeptSession
from rvstm_tools.sessions.processes import Session, Settings
from rvstm_tools.sessions.requests import Request, Word
from rvstm_tools.texts import lists
from rvstm_tools.texts.blocks import Rules
from rvstm_tools.texts.keys import Storage

LISTS = ("token", "fees")
SETTINGS = Settings(frame_limit=1_000_000, frame_gas=10_000_000, digest=True)
STRANGE = b"rvblock 1\nend\nq\ndump\nframe 0\nforget %s\n" % (b"0" * 64)
BLOCKS, BLOCKS_A_DUMP, STRANGER_AT, KILLED_AT = 10, 4, 5, 7
KILLS = 8
LONGEST_LIFE = 4  # at most, from a start to a kill, in times of what the first start lasted
NODE = TOP / "examples/node"
MOST_LINES = 550
PYTHON = "/usr/bin/python3"
"""It has Debian's packages."""


@dataclass
class Blocks:
    """The blocks of some lists in turn, one of ten a stranger's, and what begins a session of them."""

    programs: list[Request] = field(default_factory=list)
    listed: list[bytes] = field(default_factory=list)
    storage: Storage = field(default_factory=dict)

    def begin(self) -> Request:
        return requests.begin(0, NO_DIGEST, texts.dump_of(Rules.THREE, self.storage))

    def at(self, number: int) -> Request:
        is_strange = number % BLOCKS == STRANGER_AT
        return Request(Word.FRAME, (), STRANGE if is_strange else self.listed[(number - 1) % len(self.listed)])


def read_blocks() -> Blocks:
    """The blocks of the examples, all under rules three."""
    found = Blocks()
    for name in LISTS:
        folder = TOP / "examples" / name
        block = lists.read_list(str(folder / f"{name}.list")).blocks[0]
        block.rules = Rules.THREE
        found.storage |= block.storage
        block.storage = {}
        named = texts.named(block.text().encode(), folder)
        found.programs += named.programs()
        found.listed.append(named.block)
    return found


@contextmanager
def model_of(run: Run, blocks: Blocks) -> Iterator[SessionModel]:
    """A session in Python, which runs frames by `rvstm seq`, and has begun."""
    model = SessionModel(Program(run.program), SETTINGS)
    with model.place:
        for request in (*blocks.programs, blocks.begin()):
            model.answer(request)
        yield model


def next_digest(digest: bytes, answer: Answer) -> bytes:
    return hashlib.sha256(digest + answer.text()).digest()


def needed(session: Session, request: Request) -> Answer:
    answer = session.ask(request)
    assert answer is not None
    return answer


def from_a_dump(run: Run) -> None:
    """A node that keeps a dump and the frames since. Its engine is killed; another one begins with the dump, and answers these
    frames as the first one did."""
    blocks, since, digest = read_blocks(), list[tuple[Request, Answer]](), NO_DIGEST
    begin, session = blocks.begin(), Session(run.program, SETTINGS)
    with model_of(run, blocks) as model:
        for request in (*blocks.programs, begin):
            needed(session, request)
        for number in range(1, BLOCKS + 1):
            if number == KILLED_AT:
                session.kill()
                session = Session(run.program, SETTINGS)
                for request in (*blocks.programs, begin):
                    needed(session, request)
                for frame, answer in since:
                    same(needed(session, frame), answer, "a frame that is given again")
            frame = blocks.at(number)
            tried, answer = needed(session, Request(Word.TRY, (), frame.body)), needed(session, frame)
            same(answer, tried, f"block {number}, tried")
            same(answer, model.answer(frame), f"block {number}, by seq")
            digest = next_digest(digest, answer)
            state = answers.state_of(needed(session, Request(Word.STATE)).body)
            same(state.digest, digest, f"the digest of block {number}")
            since.append((frame, answer))
            if number % BLOCKS_A_DUMP == 0:
                begin, since = requests.begin(number, digest, needed(session, Request(Word.DUMP)).body), []
    session.end()


def from_a_file(run: Run) -> None:
    """A node that keeps nothing. Each engine is killed at some moment; the next one says what was kept."""
    choice, blocks, digest = random.Random(run.setting.seed), read_blocks(), NO_DIGEST
    settings, lives = SETTINGS._replace(store=str(run.place / "file")), list[float]()

    def started() -> Session:
        session = Session(run.program, settings)
        if lives:
            clock = threading.Timer(lives.pop(), session.process.kill)
            clock.daemon = True
            clock.start()
        return session

    began = time.monotonic()
    kept = KeptSession(started, blocks.programs)
    kept.ask(blocks.begin())
    opening = time.monotonic() - began
    lives += [choice.uniform(0, LONGEST_LIFE * opening) for _ in range(KILLS - 1)]
    kept.session.process.kill()
    with model_of(run, blocks) as model:
        while kept.deaths < KILLS:
            frame = blocks.at(kept.height + 1)
            answer = kept.run(frame.body)
            same(answer, model.answer(frame), f"block {kept.height}, by seq")
            digest = next_digest(digest, answer)
        for request in (Request(Word.LAST), Request(Word.DUMP), Request(Word.STATE)):
            same(kept.ask(request), model.answer(request), request.word.decode())
        same(answers.state_of(kept.ask(Request(Word.STATE)).body).digest, digest, "the digest")
    run.note(f"{kept.height} blocks, {kept.deaths} engines were killed")
    kept.end()


def signed_calls(run: Run, tests: str) -> None:
    more = {"RVSTM": str(run.program), "PYTHONDONTWRITEBYTECODE": "1"}
    done = command([PYTHON, "-m", "unittest", tests], NODE, more=more)
    holds(done.status == 0, last_lines(done.errors), "OK")


def coins_built_again(run: Run) -> None:
    """The node's contract built again has the bytes that are committed."""
    shutil.copy(NODE / "coins.c", run.place)
    command(["make", "-s", "-f", TOP / "sdk/Makefile", "coins.elf"], run.place).done()
    holds((run.place / "coins.elf").read_bytes() == (NODE / "coins.elf").read_bytes(), "other bytes", "those of coins.elf")


def few_lines(run: Run) -> None:
    """The node is as short as its page says."""
    texts = [(NODE / name).read_text(encoding="utf-8") for name in ("node.py", "ledger.py", "calls.py", "pages.py")]
    count = sum(len(text.splitlines()) for text in texts)
    holds(count <= MOST_LINES, count, f"at most {MOST_LINES} lines")


def cases() -> list[Case]:
    return [
        Case("node: from a dump", from_a_dump, cost=2),
        Case("node: from a file", from_a_file, cost=8),
        Case("node: signed calls", partial(signed_calls, tests="test_node.SignedCalls"), (Tool.CRYPTOGRAPHY,), cost=20),
        Case("node: strangers", partial(signed_calls, tests="test_node.Strangers"), (Tool.CRYPTOGRAPHY,), cost=20),
        Case("node: pages", partial(signed_calls, tests="test_node.Pages"), (Tool.CRYPTOGRAPHY,), cost=10),
        Case("node: kills", partial(signed_calls, tests="test_node.Kills"), (Tool.CRYPTOGRAPHY,), cost=20),
        Case("node: failures", partial(signed_calls, tests="test_node.Failures"), (Tool.CRYPTOGRAPHY,), cost=20),
        Case("node: payments", partial(signed_calls, tests="test_pay"), (Tool.CRYPTOGRAPHY,), cost=10),
        Case("node: its contract built again", coins_built_again, CONTRACTS),
        Case("node: its lines", few_lines),
    ]
