"""The moments of a call: its state at each, and those at which an address is reached or bytes of memory change.

A session of `rvstm debug --more` goes to any moment: forward from its own, back by a run from the call's start. So the sessions
that were opened are kept, and a moment is reached from the nearest one before it.
"""

import functools
import os
from bisect import bisect_left, bisect_right
from collections.abc import Callable, Sequence
from dataclasses import dataclass
from typing import NamedTuple

from rvstm_tools import errors
from rvstm_tools.debugging import coverage, replays, sources
from rvstm_tools.debugging.charges import StorageCall
from rvstm_tools.debugging.sessions import LINES_AT_ONCE, MOST_BYTES, REFUSED, CallOf, Debugger, place_of
from rvstm_tools.debugging.sources import Chains
from rvstm_tools.errors import UserError
from rvstm_tools.programs.elf import ElfFile
from rvstm_tools.programs.running import Program
from rvstm_tools.texts import blockfiles, shown, words
from rvstm_tools.texts.keys import KEY_LENGTH, Key
from rvstm_tools.texts.results import End
from rvstm_tools.texts.views import View

FIRST_ADDRESS, END_ADDRESS = 0x00010000, 0x00110000
NEVER = 2**64
FEW_STEPS = 64  # that are made one by one, before many are asked for at once


@dataclass
class Reach:
    """How far searches look. Tests set other numbers."""

    far: int = 100_000  # steps ahead from which on a search begins again, and does not meet all that is between
    span: int = 8192  # steps that are looked through at first for what is before
    times_more: int = 8  # how many times more are looked through then
    few_steps: int = FEW_STEPS


REACH = Reach()


def is_watchable(start: int, length: int) -> bool:
    return 0 < length <= MOST_BYTES and FIRST_ADDRESS <= start <= END_ADDRESS - length


class InterruptedMove(Exception):
    """The user asks to stop."""


class AnyMoment(Debugger):
    """A session that goes to any moment: its own one, and the pc there."""

    def __init__(self, call: CallOf) -> None:
        super().__init__(call, "--more")
        self.moment = self.pc = 0
        self.take(self.answer_bytes("w"))

    def take(self, answer: bytes) -> None:
        self.moment, self.pc, _ = place_of(answer)

    def go(self, moment: int) -> None:
        if moment != self.moment:
            self.take(self.answer_bytes(f"t {moment}"))

    def bytes_at(self, address: int, length: int) -> bytes:
        """Bytes of memory; those outside of it are left out."""
        starts = range(address, address + length, MOST_BYTES)
        return b"".join(self.memory(start, min(MOST_BYTES, address + length - start)) or b"" for start in starts)


class MomentSearch:
    """The moments that a line of `debug` leads to, one after another, as far as they were looked for."""

    address: int | None = None  # the address that the pc has there, if the search is for one

    def __init__(self, call: "DebuggedCall", line: str) -> None:
        self.call = call
        self.line = line
        self.place: AnyMoment | None = None  # the session that was asked, and whose answers are not read yet
        self.begin(0)

    def begin(self, moment: int) -> None:
        if self.place:
            self.take(self.place)
        self.first = self.end = moment  # all from the first one to the end are known
        self.moments: list[int] = []
        self.is_begun = False
        self.count = 1

    def ask(self, moment: int) -> None:
        """Asks for more if it is not known whether there is one above a moment; others are asked before it is read."""
        if self.place is None and self.end <= moment:
            self.place = self.call.take_place(self.end)
            self.place.say(f"t {self.end}\n" + f"{self.line}\n" * self.count)

    def take(self, place: AnyMoment) -> None:
        here, *answers = place.answers_to_said(1 + self.count)
        place.take(here)
        if not self.is_begun and place.pc == self.address:
            self.moments.append(self.first)
        self.is_begun = True
        for answer in answers:
            if not answer.startswith(REFUSED.encode()):
                place.take(answer)
            if place.moment > self.call.last:
                self.end = NEVER
                break
            self.end = place.moment
            self.moments.append(self.end)
        self.count = min(2 * self.count, LINES_AT_ONCE // 2)
        self.call.idle.append(place)
        self.place = None

    def look(self, moment: int) -> None:
        """Looks on until it is known whether there is one above a moment."""
        while self.place or self.end <= moment:
            self.call.hear()
            self.ask(moment)
            if self.place:
                self.take(self.place)

    def prepare(self, moment: int) -> None:
        """Begins to look for the first one above a moment, from the moment on if that is far from what is known."""
        if not self.first <= moment <= self.end + REACH.far:
            self.begin(moment)
        self.ask(moment)

    def after(self, moment: int) -> int:
        """The first one above a moment for which it is prepared, or NEVER."""
        self.look(moment)
        at = bisect_right(self.moments, moment)
        return self.moments[at] if at < len(self.moments) else NEVER

    def before(self, moment: int) -> int:
        """The last one below a moment, or -1."""
        span = REACH.span
        if moment > self.end + REACH.far:
            self.begin(max(0, moment - span))
        while True:
            if self.first < moment:
                self.look(moment - 1)
                at = bisect_left(self.moments, moment) - 1
                if at >= 0:
                    return self.moments[at]
            if self.first == 0 or moment == 0:
                return -1
            self.begin(max(0, moment - span))
            span *= REACH.times_more

    def back(self, moment: int) -> int:
        """Where a move back from a moment stops; below 0 if nowhere."""
        return self.before(moment)


class Hits(MomentSearch):
    def __init__(self, call: "DebuggedCall", address: int) -> None:
        super().__init__(call, f"g {address:08x}")
        self.address = address

    def up_to(self, moment: int) -> list[int]:
        """The moments of hits up to one, which is included, in their order."""
        if self.first:
            self.begin(0)
        self.look(moment)
        return self.moments[: bisect_right(self.moments, moment)]


class MemorySearch(MomentSearch):
    """The moments at which some bytes of memory are others than at the moment before."""

    def __init__(self, call: "DebuggedCall", start: int, length: int) -> None:
        super().__init__(call, f"c {start:08x} {length}")
        self.start = start

    def back(self, moment: int) -> int:
        """The moment before the last change up to one, which is included; -2 if there is none."""
        return self.before(moment + 1) - 1


class Edge:
    """Where a move ends that no search stops."""


RANGE_LEFT, NO_STOP = Edge(), Edge()
Stop = MomentSearch | Edge | None
"""What a move found: a search, `RANGE_LEFT`, `NO_STOP` if nothing stops a step, or None at an end of the call."""


class Watched(NamedTuple):
    start: int
    length: int


class MomentRow(NamedTuple):
    moment: int
    registers: list[int]
    pc: int


class Met(NamedTuple):
    moment: int
    search: MomentSearch | None


@dataclass(frozen=True)
class EndOfCall:
    end: End
    output: bytes
    gas: int
    steps: int


def end_of(answer: str) -> EndOfCall:
    try:
        _, end, output, gas, steps = answer.split(" ")
        return EndOfCall(End(end), bytes.fromhex(output.replace("-", "")), int(gas), int(steps))
    except ValueError as error:
        raise UserError(f"rvstm debug answered {answer!r} in place of an end; please report it") from error


class DebuggedCall:
    def __init__(self, subject: CallOf, view: View, hear: Callable[[], None]) -> None:
        """`hear` is asked often, and raises `InterruptedMove` if the user asks to stop."""
        self.subject = subject
        self.view = view
        self.hear = hear
        self.idle: list[AnyMoment] = []
        self.opened: list[AnyMoment] = []
        self.hits: dict[int, Hits] = {}
        self.changes: dict[Watched, MemorySearch] = {}
        self.end = end_of(self.here_at(0).answer("e"))
        self.now = 0
        self.last = self.end.steps - 1  # the last instruction changes nothing, so the moment after it is not shown
        self.seen: MomentRow | None = None

    def close(self) -> None:
        for place in self.opened:
            place.kill()

    def take_place(self, moment: int) -> AnyMoment:
        """A session that nobody else uses until it is put back: the nearest one before a moment, or else any."""
        before = [place for place in self.idle if place.moment <= moment] or self.idle
        if not before:
            self.opened.append(AnyMoment(self.subject))
            return self.opened[-1]
        place = max(before, key=lambda place: place.moment)
        self.idle.remove(place)
        return place

    def here_at(self, moment: int) -> AnyMoment:
        """A session at a moment, until another one is asked for."""
        place = self.take_place(moment)
        self.idle.append(place)
        place.go(moment)
        return place

    def state(self) -> MomentRow:
        if self.seen is None or self.seen.moment != self.now:
            place = self.here_at(self.now)
            self.seen = MomentRow(self.now, place.registers(), place.pc)
        return self.seen

    def memory(self, address: int, length: int) -> bytes:
        """Bytes of memory; fewer if the others are outside, and none if the first one is."""
        if not FIRST_ADDRESS <= address < END_ADDRESS:
            return b""
        return self.here_at(self.now).bytes_at(address, min(length, END_ADDRESS - address))

    def hits_of(self, address: int) -> Hits:
        """The moments at which the pc is an address. They are kept, since gdb asks again at each move."""
        if address not in self.hits:
            self.hits[address] = Hits(self, address)
        return self.hits[address]

    def changes_of(self, watched: Watched) -> MemorySearch:
        if watched not in self.changes:
            self.changes[watched] = MemorySearch(self, *watched)
        return self.changes[watched]

    # ---- moves

    def step(self, watches: Sequence[MomentSearch]) -> Stop:
        """Goes to the next moment. Returns a watch that has it."""
        if self.now == self.last:
            return None
        moment, watch = self.next_of(watches)
        self.now += 1
        return watch if moment == self.now else NO_STOP

    def step_back(self, watches: Sequence[MomentSearch]) -> Stop:
        """Goes to the moment before. Returns a watch that is met on the way there."""
        if self.now == 0:
            return None
        self.now -= 1
        return next((watch for watch in watches if watch.back(self.now + 1) == self.now), NO_STOP)

    def next_of(self, searches: Sequence[MomentSearch]) -> Met:
        """The first moment after this one that one of some searches has; NEVER if none has one."""
        for search in searches:
            search.prepare(self.now)
        met = [Met(search.after(self.now), search) for search in searches]
        first = min(met, key=lambda one: one.moment, default=Met(NEVER, None))
        return first if first.moment < NEVER else Met(NEVER, None)

    def go_on(self, searches: Sequence[MomentSearch]) -> Stop:
        """Goes to the next moment that one of some searches has, or to the last one. Returns the search that has it."""
        stop, search = self.next_of(searches)
        self.now = min(stop, self.last)
        return search

    def go_back(self, searches: Sequence[MomentSearch]) -> Stop:
        """Goes back to the last moment before that one of some searches has, or to the first. Returns that search."""
        met = [Met(search.back(self.now), search) for search in searches]
        last = max(met, key=lambda one: one.moment, default=Met(-1, None))
        self.now = max(last.moment, 0)
        return last.search if last.moment >= 0 else None

    def leave(self, begin: int, end: int, searches: Sequence[MomentSearch]) -> Stop:
        """Makes steps until the pc leaves a range or a search has the moment."""
        stop, search = self.next_of(searches)
        first, count, has_left = self.now, 1, False
        place = self.here_at(first)
        while self.now < min(stop, self.last) and not has_left:
            self.hear()
            if self.now - first >= REACH.few_steps:
                count = min(2 * count, LINES_AT_ONCE, min(stop, self.last) - self.now)
            for answer in list(place.answers("s", count)):
                place.take(answer)
                if not has_left:
                    self.now, has_left = place.moment, not begin <= place.pc < end
        if self.now == stop:
            return search
        return RANGE_LEFT if has_left else None

    # ---- what is printed

    def end_text(self) -> str:
        output = f" {shown.shown_bytes(self.end.output)}" if self.end.output else ""
        head = blockfiles.head_of_call(self.subject.file, self.subject.number)
        meaning = f", {text}" if (text := self.view.input(head.data)) else ""
        name = f"call {self.subject.number} of {os.path.basename(self.subject.file)}{meaning}"
        return f"{name}: {self.end.end}{output}, {self.end.steps} steps, gas {self.end.gas}\n"

    def value_text(self, word: str) -> str:
        """What a READ of a key would find now; the key is a word of a list."""
        try:
            data = words.joined([word], KEY_LENGTH, "a key")
        except UserError as error:
            return f"{error}\n"
        if len(data) != KEY_LENGTH:
            return f"{word}: a key has {KEY_LENGTH} bytes, and this is {len(data)}\n"
        kind, *value = self.here_at(self.now).answer(f"v {data.hex()}").split(" ")
        found = self.view.value(Key(data), bytes.fromhex(value[0].replace("-", ""))) if value else kind
        return f"{self.view.key(Key(data))}: {found}\n"

    def program_path(self) -> str:
        return str(self.subject.folder / blockfiles.head_of_call(self.subject.file, self.subject.number).program)

    def check_lines(self) -> None:
        """Refuses lines beside the program that are of another one: gdb would show them."""
        lines = sources.lines_file_of(self.program_path())
        if os.path.isfile(lines):
            sources.check_is_of(ElfFile(lines), self.program_path())

    @functools.cached_property
    def chains(self) -> Chains:
        """The functions and lines of all addresses of the program."""
        tool = sources.address_tool()
        program = coverage.lines_program(self.program_path(), tool)
        return sources.chains_of(program, list(program.words()), tool)

    def places_text(self, line: str) -> str:
        """The addresses at which code of FILE:LINE begins, a line for each."""
        try:
            places = sources.places_of(self.chains, line)
        except (UserError, OSError) as error:
            return f"{errors.reason(error)}\n"
        return "".join(f"{address:08x}\n" for address in places) or f"{line}: no code is of this line\n"

    def ecalls(self) -> list[int]:
        """The addresses of all ECALLs of the program. A UserError if rvstm refuses it."""
        path = blockfiles.head_of_call(self.subject.file, self.subject.number).program
        printed = Program(self.subject.program).run(["dis", path], self.subject.folder)
        if printed.refusal:
            raise UserError(printed.refusal)
        rows = (line.split(" ", 2) for line in printed.text.splitlines())
        return [int(row[0], 16) for row in rows if row[-1] == replays.ECALL]

    def storage_calls_text(self) -> str:
        """The storage calls up to this moment, and the one that is at it, each with its moment and its address."""
        rows = []
        for moment in sorted(moment for address in self.ecalls() for moment in self.hits_of(address).up_to(self.now)):
            place = self.here_at(moment)
            call = replays.asked(place, moment, place.pc)
            if call.number == StorageCall.READ and moment < self.last:
                replays.take_answer(place, call)
                place.take(place.answer_bytes("w"))
            rows.append(f"{moment:>8} {call.pc:08x} {call.text(self.view)}\n")
        return "".join(rows) or "no storage calls\n"
