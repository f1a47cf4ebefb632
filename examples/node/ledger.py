"""The ledger: calls that wait for their block, and the session of `rvstm chain` in which blocks run, kept in a file."""

import contextlib
import secrets
import sys
import threading
import time
from collections import deque
from collections.abc import Iterator
from concurrent.futures import Future
from dataclasses import dataclass
from itertools import islice
from pathlib import Path

import calls  # first: it finds tools/
import pages
from calls import RefusedError, SignedCall
from rvstm_tools import errors
from rvstm_tools.errors import UserError
from rvstm_tools.programs.running import Program
from rvstm_tools.sessions import frames, requests
from rvstm_tools.sessions.answers import Done
from rvstm_tools.sessions.kept import STATE, KeptSession
from rvstm_tools.sessions.processes import Session, Settings
from rvstm_tools.sessions.requests import Request, Word
from rvstm_tools.texts import blocks, objects, results
from rvstm_tools.texts.blocks import CallLine, Rules
from rvstm_tools.texts.keys import ACCOUNT_LENGTH
from rvstm_tools.texts.objects import Object
from rvstm_tools.texts.rows import Row

CONTRACT = Path(__file__).resolve().parent / "coins.elf"
COINS, NUMBERS = "coin", "next"  # tables: the first is the contract's, the second the node's own
NAME, NAME_LENGTH = Row("node", b"ledger"), 32  # of the ledger
GAS_OF_A_BLOCK = 100_000_000
CALLS_OF_A_BLOCK = min(blocks.MOST_CALLS, GAS_OF_A_BLOCK // calls.MOST_GAS)
SHOWN_BLOCKS = 8
MOST_STARTS = 3  # of an engine that is killed before it answers
FIRST_PAUSE, LONGEST_PAUSE = 1.0, 60.0  # seconds without an engine after it failed


@dataclass(frozen=True)
class Waiting:
    """A call that waits for its block, and the place of its receipt."""

    call: SignedCall
    receipt: Future[Object]


def read_by(call: SignedCall) -> list[Row]:
    """What the contract reads in a call: the coins of who pays and of who is paid."""
    return [Row(COINS, call.account), Row(COINS, call.input[:ACCOUNT_LENGTH])]


class Ledger:
    """Calls that wait, and the session in which their blocks run. If its engine fails, all that wait are refused, and
    everybody for a pause. Each failure before the next block doubles the pause."""

    def __init__(self, program: Program, store: str) -> None:
        self.program, self.contract = program, CONTRACT.read_bytes()
        self.program_name = frames.name_of(self.contract)
        self.settings = Settings(frame_gas=GAS_OF_A_BLOCK, digest=True, brief=True, store=store)
        self.lock = threading.Lock()  # of all below, and of the session
        self.waiting: dict[tuple[bytes, int], Waiting] = {}  # by account and number, in the order in which they came
        self.numbers: dict[bytes, int] = {}  # of the next call of each account that has calls that wait
        self.shown: deque[pages.Shown] = deque(maxlen=SHOWN_BLOCKS)
        self.fault, self.pause, self.pause_end = "", FIRST_PAUSE, 0.0  # the first says why no engine runs
        self.start()

    def start(self) -> None:
        """Starts a session. A new ledger gets a name, so that what is signed for it runs in no other."""
        self.starts = 0
        self.session = KeptSession(self.engine, [Request(Word.PROGRAM, (), self.contract)])
        if self.session.height == 0 and self.value_at(NAME) is None:
            named = self.answer(Request(Word.DUMP)) + frames.store_lines({NAME.key: secrets.token_bytes(NAME_LENGTH)})
            self.answer(requests.begin(0, self.session.state.digest, named))
        self.name = self.value_at(NAME) or b""
        if len(self.name) != NAME_LENGTH:
            raise UserError(f"{self.settings.store}: the ledger has no name: an older node began it")
        self.state = self.answer(STATE).decode()

    def engine(self) -> Session:
        if self.starts == MOST_STARTS:
            raise UserError(f"it was killed {MOST_STARTS} times before it answered")
        self.starts += 1
        return Session(self.program.path, self.settings)

    @contextlib.contextmanager
    def running(self) -> Iterator[None]:
        """The session, for one thread at a time."""
        with self.lock:
            if time.monotonic() < self.pause_end:
                raise RefusedError(503, self.fault)
            try:
                if self.fault:
                    self.start()
                    self.fault = ""
                yield
            except (UserError, OSError) as error:
                self.fail(errors.reason(error))
                raise RefusedError(503, self.fault) from error

    def fail(self, reason: str) -> None:
        """Refuses all that wait. A call may have run: if it is sent again, it gets a receipt or status 409."""
        self.session.session.kill()
        self.fault = f"the engine failed: {reason}"
        with contextlib.suppress(OSError):
            print(f"node: {self.fault}", file=sys.stderr, flush=True)
        for one in self.waiting.values():
            one.receipt.set_exception(RefusedError(503, self.fault))
        self.waiting.clear()
        self.numbers.clear()
        self.pause_end = time.monotonic() + self.pause
        self.pause = min(2 * self.pause, LONGEST_PAUSE)

    def answer(self, request: Request) -> bytes:
        """The bytes of the answer to a request that may be given twice."""
        answer = self.session.ask(request)
        if not isinstance(answer, Done):
            raise UserError(answer.said)
        return answer.body

    def value_at(self, row: Row) -> bytes | None:
        text = self.answer(Request(Word.GET, (requests.key_field(row.key),))).decode()
        return None if text == "absent\n" else results.bytes_of(text.split()[1])

    def next_number(self, account: bytes) -> int:
        """The number of the next call of an account: it is kept in the same step as the block of the last one."""
        if account in self.numbers:
            return self.numbers[account]
        return int.from_bytes(self.value_at(Row(NUMBERS, account)) or b"", "little")

    def account(self, account: bytes) -> Object:
        """What a sender needs, and the coins."""
        with self.running():
            number, value = self.next_number(account), self.value_at(Row(COINS, account))
        coins = None if value is None else int.from_bytes(value, "little")
        return {"ledger": self.name.hex(), "next": number, "coins": coins}

    def take(self, call: SignedCall) -> Future[Object]:
        """Takes a call for the next block. Its receipt comes later, also for one that is sent again while it waits."""
        call.check(self.name, self.program_name)
        with self.running():
            one = self.waiting.get((call.account, call.number))
            if one and one.call == call:
                return one.receipt
            wanted = self.next_number(call.account)
            if call.number != wanted:
                raise RefusedError(409, f"the next call of this account has the number {wanted}")
            self.numbers[call.account] = wanted + 1
            self.waiting[call.account, call.number] = one = Waiting(call, Future())
            return one.receipt

    def turn(self) -> None:
        """Runs a block of calls that wait. The state is asked for in each turn, so an engine that ended is noticed."""
        with self.running():
            taken = list(islice(self.waiting.values(), CALLS_OF_A_BLOCK))
            if taken:
                self.run_block(taken)
            self.state = self.answer(STATE).decode()
            self.starts = 0

    def run_block(self, taken: list[Waiting]) -> None:
        """Runs a block, and sends the receipts. What its calls read before it is kept for the picture."""
        rows = {row for one in taken for row in read_by(one.call)}
        before = {row.key: value for row in rows if (value := self.value_at(row)) is not None}
        block = self.block_of([one.call for one in taken])
        answer = self.session.run(block)
        if not isinstance(answer, Done):
            raise UserError(f"the block did not run: {answer.said}")
        receipts, height = results.result_of(answer.body.decode()).receipts, self.session.height
        file, senders = frames.put_over(block, before), [one.call.account for one in taken]
        self.shown.appendleft(pages.Shown(height, file, senders, receipts))
        for one, receipt in zip(taken, receipts):
            del self.waiting[one.call.account, one.call.number]
            one.receipt.set_result({"block": height} | objects.object_of_call(receipt, has_registers=False))
        if not self.waiting:
            self.numbers.clear()
        self.pause = FIRST_PAUSE

    def block_of(self, signed: list[SignedCall]) -> bytes:
        """The block of some calls, with the numbers of the calls after them."""
        numbers = {Row(NUMBERS, call.account).key: (call.number + 1).to_bytes(8, "little") for call in signed}
        lines = [CallLine(0, call.gas, call.account + call.input) for call in signed]
        return blocks.text([self.program_name], numbers, lines, Rules.THREE).encode()

    def page(self) -> str:
        """The page of the last blocks. It waits for no block."""
        programs = {self.program_name: self.contract}
        drawn = [pages.section_of(one, one.picture(self.program, programs)) for one in list(self.shown)]
        return pages.page_of(drawn, self.state, self.name.hex(), self.program_name, self.fault)
