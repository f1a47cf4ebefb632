import argparse
import enum
import random
from collections.abc import Callable, Iterable
from random import Random
from typing import NamedTuple

from rvstm_developers import texts
from rvstm_tools import options
from rvstm_tools.debugging import gdb, moments
from rvstm_tools.debugging.moments import InterruptedMove
from rvstm_tools.debugging.packets import Wire
from rvstm_tools.debugging.sessions import CallOf, Debugger
from rvstm_tools.errors import UserError
from rvstm_tools.options import Command, argument
from rvstm_tools.programs import finding
from rvstm_tools.texts.views import View

STACK, STACK_END = 0x0010FF00, 0x00110000
MOVES_OF_ROUND = 60
MOVES = "step step back back back back on on return return range many go break clear watch unwatch".split()
INTERRUPTED = 0.02  # of the looks at whether gdb asks to stop
WORD = 4  # bytes


class Reason(enum.Enum):
    STOP = "stop"
    WATCH = "watch"
    START = "start"
    END = "end"


MARKS = {"replaylog:end": Reason.END, "replaylog:begin": Reason.START, "watch:": Reason.WATCH}  # what the packet of a stop has for a reason


class Stop(NamedTuple):
    moment: int
    reason: Reason


class Memory(NamedTuple):
    start: int
    length: int


class MomentState(NamedTuple):
    """The state at a moment: the registers, the pc, and the upper end of the stack."""

    registers: list[int]
    pc: int
    stack: bytes


class Trace:
    def __init__(self, call: CallOf) -> None:
        with Debugger(call) as session:
            self.total = session.run_to_end()
        self.last = self.total - 1
        self.rows: list[MomentState] = []
        with Debugger(call) as session:
            line = session.answer("w")
            for _ in range(self.total):
                stack = session.memory(STACK, STACK_END - STACK)
                assert stack is not None
                self.rows.append(MomentState(session.registers(), int(line.split(" ")[1], 16), stack))
                line = session.answer("s")
        self.addresses = sorted({row.pc for row in self.rows})
        self.words: list[int] = []  # words of the stack that change
        self.meetings: list[int] = []  # the addresses after these changes, where a breakpoint meets a watchpoint
        for before, row in zip(self.rows, self.rows[1:]):
            for at in changed_words(before.stack, row.stack):
                self.words.append(at)
                self.meetings.append(row.pc)
        self.words, self.meetings = sorted(set(self.words)), sorted(set(self.meetings))

    def pc(self, moment: int) -> int:
        return self.rows[moment].pc

    def registers(self, moment: int) -> str:
        row = self.rows[moment]
        words = [texts.word(word) for word in [*row.registers, row.pc]]
        return b"".join([*words, texts.word(moment, 8)]).hex()

    def stack(self, moment: int, place: Memory) -> bytes:
        return self.rows[moment].stack[place.start - STACK :][: place.length]

    def has_changed(self, moment: int, watches: Iterable[Memory]) -> bool:
        return any(self.stack(moment - 1, watch) != self.stack(moment, watch) for watch in watches)


def changed_words(before: bytes, after: bytes) -> list[int]:
    if before == after:
        return []
    return [STACK + at for at in range(0, len(before), WORD) if before[at : at + WORD] != after[at : at + WORD]]


class MovingWire(Wire):
    """A wire without gdb, which is interrupted now and then."""

    def __init__(self, draw: Random) -> None:
        super().__init__()
        self.draw, self.said = draw, ""

    def hear(self) -> None:
        if self.draw.random() < INTERRUPTED:
            raise InterruptedMove

    def show(self, text: str) -> None:
        self.said = text


class Round:
    def __init__(self, trace: Trace, call: CallOf, draw: Random) -> None:
        self.trace, self.draw, self.now, self.compared = trace, draw, 0, 0
        self.moves: list[str] = []
        self.points: set[int] = set()
        self.watches: set[Memory] = set()
        self.wire = MovingWire(draw)
        self.server = gdb.Server(self.wire, lambda hear: moments.DebuggedCall(call, View(), hear))

    def require(self, holds: bool, what: str) -> None:
        if not holds:
            moves = "\n".join(self.moves)
            raise UserError(f"differs: {what}; at moment {self.server.call.now}, where {self.now} was wanted, after\n{moves}")

    def reason(self, moment: int, first: int, last: int) -> Reason | None:
        """What stops at a moment on the way forward, in a range of addresses; None if it goes on."""
        if self.trace.has_changed(moment, self.watches):
            return Reason.WATCH
        pc = self.trace.pc(moment)
        return Reason.STOP if pc in self.points or not first <= pc < last else None

    def forward(self, first: int = 0, last: int = 2**32) -> Stop:
        """The next stop as the trace has it, and why."""
        for moment in range(self.now + 1, self.trace.total):
            if reason := self.reason(moment, first, last):
                return Stop(moment, reason)
        return Stop(self.trace.last, Reason.END)

    def backward(self) -> Stop:
        for moment in range(self.now - 1, -1, -1):
            if self.trace.has_changed(moment + 1, self.watches):
                return Stop(moment, Reason.WATCH)
            if self.trace.pc(moment) in self.points:
                return Stop(moment, Reason.STOP)
        return Stop(0, Reason.START)

    def move(self, packet: str, wanted: Stop) -> None:
        """Sends a packet that moves, and compares the stop; an interrupted move may stop on the way."""
        self.moves.append(f"{self.now} {packet} {sorted(self.points)} {sorted(self.watches)}")
        before, self.compared = self.now, self.compared + 1
        self.wire.said = ""
        try:
            answer = self.server.answers[packet[0]](packet)
        except InterruptedMove:
            self.now = self.server.call.now
            self.require(min(before, wanted.moment) <= self.now <= max(before, wanted.moment), "an interrupted move")
            return self.compare()
        self.now = wanted.moment
        self.require(self.server.call.now == wanted.moment, packet)
        marks = [reason for mark, reason in MARKS.items() if mark in answer]
        if wanted.reason is Reason.END:
            end = self.server.call.end.end
            signal = gdb.SIGNALS.get(end)
            is_told = answer.startswith(signal.packet) if signal else marks == [Reason.END]
            self.require(is_told, f"{packet}: {answer} for {end}")
            self.require(f": {end}" in self.wire.said, "no line tells of the end")
        else:
            wanted_marks = [] if wanted.reason is Reason.STOP else [wanted.reason]
            self.require(answer.startswith(gdb.TRAPPED) and marks == wanted_marks, f"{packet}: {answer} for {wanted.reason.value}")
        return self.compare()

    def compare(self) -> None:
        self.require(self.server.all_registers("g") == self.trace.registers(self.now), "registers")
        start = self.draw.randrange(STACK, STACK_END)
        place = Memory(start, self.draw.randrange(1, STACK_END - start + 1))
        found = self.server.memory(f"m{start:x},{place.length:x}")
        self.require(found == self.trace.stack(self.now, place).hex(), f"memory at {start:08x}")

    def step(self) -> None:
        is_end = self.now == self.trace.last
        is_watched = not is_end and self.trace.has_changed(self.now + 1, self.watches)
        reason = Reason.END if is_end else Reason.WATCH if is_watched else Reason.STOP
        self.move("vCont;s:1;c", Stop(self.now + (not is_end), reason))

    def back(self) -> None:
        is_start = self.now == 0
        is_watched = not is_start and self.trace.has_changed(self.now, self.watches)
        reason = Reason.START if is_start else Reason.WATCH if is_watched else Reason.STOP
        self.move("bs", Stop(self.now - (not is_start), reason))

    def many(self) -> None:
        for _ in range(self.draw.randrange(20)):
            self.back()

    def range(self) -> None:
        first = self.draw.choice(self.trace.addresses)
        last = first + 4 * self.draw.randrange(1, 40)
        self.move(f"vCont;r{first:x},{last:x}:1;c", self.forward(first, last))

    def go(self) -> None:
        self.now = self.draw.randrange(self.trace.total)
        self.server.command(["go", str(self.now)])
        self.compare()

    def set(self, kind: str, place: Memory, letter: str) -> None:
        packet = f"{letter}{kind},{place.start:x},{place.length:x}"
        self.require(self.server.answers[letter](packet) == "OK", packet)

    def address_to_break(self) -> int:
        addresses = self.trace.addresses
        return self.draw.choice(self.draw.choice((addresses, self.trace.meetings or addresses, [self.trace.pc(0)])))

    def place_to_watch(self) -> Memory:
        start = self.draw.choice(self.trace.words or [STACK])
        return Memory(start, min(self.draw.choice((4, 8)), STACK_END - start))

    def turn(self) -> None:
        name = self.draw.choice(MOVES)
        if name == "on":
            self.move("vCont;c", self.forward())
        elif name == "return":
            self.move("bc", self.backward())
        elif name == "break":
            address = self.address_to_break()
            self.points.add(address)
            self.set("0", Memory(address, WORD), "Z")
        elif name == "watch":
            place = self.place_to_watch()
            self.watches.add(place)
            self.set("2", place, "Z")
        elif name == "clear" and self.points:
            self.set("0", Memory(self.points.pop(), WORD), "z")
        elif name == "unwatch" and self.watches:
            self.set("2", self.watches.pop(), "z")
        elif name not in ("clear", "unwatch"):
            moves: dict[str, Callable[[], None]] = {
                "step": self.step, "back": self.back, "many": self.many, "range": self.range, "go": self.go,
            }
            moves[name]()


def draw_sizes(draw: Random) -> None:
    moments.REACH.far, moments.REACH.span = draw.choice((8, 64, 100_000)), draw.choice((4, 64, 8192))
    moments.REACH.times_more, moments.REACH.few_steps = draw.choice((2, 8)), draw.choice((0, 3, 64))


def run(given: argparse.Namespace) -> int:
    program = finding.chosen(options.program_choice(given), "gdb-moves")
    call = CallOf(program.path, given.file, given.call)
    trace, draw, compared = Trace(call), random.Random(given.seed), 0
    for _ in range(given.rounds):
        draw_sizes(draw)
        played = Round(trace, call, draw)
        try:
            for _ in range(MOVES_OF_ROUND):
                played.turn()
        finally:
            played.server.close()
        compared += played.compared
    print(f"{trace.total} steps, {compared:,} moves compared, 0 differ")
    return 0


COMMAND = Command(
    "Compares random moves of `rvstm-tools gdb` with the whole trace of a call.",
    "examples/token/token.block --call 3",
    run,
    (
        options.add_program,
        *options.CALL,
        options.SEED,
        argument("--rounds", type=int, default=20, metavar="N", help=f"each has {MOVES_OF_ROUND} moves; 20 without it"),
    ),
)
