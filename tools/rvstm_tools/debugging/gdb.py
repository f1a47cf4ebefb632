"""A server that answers gdb for a call (GDB's manual, "Packets" of the remote protocol)."""

import enum
from collections.abc import Callable, Sequence
from typing import NamedTuple

from rvstm_tools.debugging.moments import DebuggedCall, Hits, InterruptedMove, MemorySearch, MomentSearch, Stop, Watched, is_watchable
from rvstm_tools.debugging.packets import Wire
from rvstm_tools.texts.results import End

PC, MOMENT = 32, 33  # numbers of registers after x0 to x31
NAMES = "zero ra sp gp tp t0 t1 t2 fp s1 a0 a1 a2 a3 a4 a5 a6 a7 s2 s3 s4 s5 s6 s7 s8 s9 s10 s11 t3 t4 t5 t6".split()
TYPES = {"ra": "code_ptr", "sp": "data_ptr", "gp": "data_ptr", "tp": "data_ptr", "fp": "data_ptr"}
FIRST_ASKED = (1, 2, 8, PC, MOMENT)  # registers that gdb wants at each stop


class Signal(enum.IntEnum):
    INT = 2
    ILL = 4
    TRAP = 5
    ABRT = 6
    BUS = 10
    SEGV = 11
    SYS = 12
    XCPU = 24
    XFSZ = 25

    @property
    def packet(self) -> str:
        return f"T{self.value:02x}"


SIGNALS = {
    End.REVERTED: Signal.ABRT, End.OUT_OF_GAS: Signal.XCPU, End.ILLEGAL: Signal.ILL, End.MISALIGNED: Signal.BUS,
    End.MEMORY_FAULT: Signal.SEGV, End.FETCH_FAULT: Signal.SEGV, End.BREAKPOINT: Signal.TRAP, End.UNKNOWN_CALL: Signal.SYS,
    End.BAD_LENGTH: Signal.SYS, End.TOO_MANY_WRITES: Signal.XFSZ,
}
TRAPPED = Signal.TRAP.packet
MOVES = ("b", "c", "C", "s", "S", "vCont;")  # how packets begin whose answer is a stop
REFUSAL = "E.the call is replayed, so nothing of it can be changed"
INTERRUPTED = "E.interrupted"
ERROR = "E01"
FEATURES = "PacketSize=3fff;QStartNoAckMode+;qXfer:features:read+;ReverseStep+;ReverseContinue+;vContSupported+"
TARGET = "qXfer:features:read:target.xml:"
QUERIES = {"qSupported": FEATURES, "qC": "QC1", "qAttached": "1", "qfThreadInfo": "m1", "qsThreadInfo": "l", "qSymbol": "OK"}
COMMANDS = "monitor end, monitor calls, monitor value KEY, monitor go MOMENT, monitor places FILE:LINE\n"
MOST_DIGITS = 16  # of a number in a packet


def description() -> str:
    registers = [f'<reg name="{name}" bitsize="32" type="{TYPES.get(name, "int")}"/>' for name in NAMES]
    registers.append('<reg name="pc" bitsize="32" type="code_ptr"/>')
    # Without an ABI gdb takes a file that has no notes for one of Linux.
    return (
        '<?xml version="1.0"?><!DOCTYPE target SYSTEM "gdb-target.dtd"><target version="1.0">'
        "<architecture>riscv:rv32</architecture><osabi>none</osabi>"
        f'<feature name="org.gnu.gdb.riscv.cpu">{"".join(registers)}</feature>'
        f'<feature name="rvstm"><reg name="moment" bitsize="64" type="uint64" regnum="{MOMENT}"/></feature></target>'
    )


class WrongPacketError(Exception):
    """A packet that gdb does not send."""


def number_of(word: str) -> int:
    """A number in hex; -1 if it has too many digits. A WrongPacketError for another word."""
    try:
        return int(word, 16) if len(word) <= MOST_DIGITS and "_" not in word else -1
    except ValueError as error:
        raise WrongPacketError from error


class Numbers(NamedTuple):
    first: int
    second: int


def numbers_of(text: str) -> Numbers:
    """The numbers after the letter of a packet: FIRST,SECOND, with more after a `;` or a comma."""
    words = [word.split(";")[0] for word in text[1:].split(",")]
    numbers = [number_of(word) for word in words[:2]]
    if len(numbers) < 2 or min(numbers) < 0:
        raise WrongPacketError
    return Numbers(*numbers)


class Breakpoint(NamedTuple):
    kind: str
    address: int


class Server:
    def __init__(self, wire: Wire, open_call: Callable[[Callable[[], None]], DebuggedCall]) -> None:
        """`open_call` opens the call. It is handed what has to be asked often, and stops a move."""
        self.wire = wire
        self.open_call = open_call
        self.opened: DebuggedCall | None = None
        self.breakpoints: dict[Breakpoint, Hits] = {}
        self.watches: dict[Watched, MemorySearch] = {}
        self.stopped = TRAPPED
        self.answers: dict[str, Callable[[str], str]] = {
            "?": lambda _: self.stop(self.stopped), "g": self.all_registers, "p": self.register, "m": self.memory,
            "G": self.refuse, "P": self.refuse, "M": self.refuse, "X": self.refuse,
            "Z": self.insert_or_remove, "z": self.insert_or_remove, "c": self.go_on, "C": self.go_on, "s": self.step, "S": self.step,
            "b": self.backward, "v": self.verbose, "q": self.query, "H": lambda _: "OK", "T": lambda _: "OK",
        }

    @property
    def call(self) -> DebuggedCall:
        """The call. gdb wants an answer to its first packets in two seconds, and the calls before this one may last longer; so
        the call is opened when it is first asked for."""
        if self.opened is None:
            self.opened = self.open_call(self.wire.hear)
            self.opened.check_lines()
        return self.opened

    def close(self) -> None:
        if self.opened:
            self.opened.close()

    def serve(self) -> None:
        while (packet := self.wire.packet()) is not None:
            if packet.startswith(("k", "vKill", "D")):
                if packet[0] != "k":
                    self.wire.send("OK")
                return
            if packet == "QStartNoAckMode":
                self.wire.send("OK")
                self.wire.acknowledges = False
            else:
                self.wire.send(self.answer(packet))

    def answer(self, packet: str) -> str:
        answer, is_move = self.answers.get(packet[:1]), packet.startswith(MOVES)
        try:
            if is_move:
                self.wire.hear()
            return answer(packet) if answer else ""
        except InterruptedMove:
            return self.stop(Signal.INT.packet) if is_move else INTERRUPTED
        except WrongPacketError:
            return ERROR

    def refuse(self, _: str) -> str:
        return REFUSAL

    def query(self, packet: str) -> str:
        name, _, _ = packet.partition(":")
        if packet.startswith(TARGET):
            start, length = numbers_of(f":{packet.removeprefix(TARGET)}")
            part = description()[start : start + length]
            return ("m" if start + length < len(description()) else "l") + part
        if name.startswith("qRcmd,"):
            return self.command(words_of_hex(name.removeprefix("qRcmd,"))).encode().hex()
        return QUERIES.get(name, "")

    def command(self, words: Sequence[str]) -> str:
        match words:
            case ["go", moment] if moment.isascii() and moment.isdigit() and len(moment) <= MOST_DIGITS:
                self.call.now = min(int(moment), self.call.last)
                return f"moment {self.call.now} of {self.call.last}, pc {self.call.state().pc:08x}\n"
            case ["value", key]:
                return self.call.value_text(key)
            case ["places", line]:
                return self.call.places_text(line)
            case ["end"]:
                return self.call.end_text()
            case ["calls"]:
                return self.call.storage_calls_text()
        return COMMANDS

    def verbose(self, packet: str) -> str:
        if packet == "vCont?":
            return "vCont;c;C;s;S;r"
        if not packet.startswith("vCont;"):
            return ""
        action = packet.split(";")[1].split(":")[0]
        if action[:1] in ("c", "C"):
            return self.go_on(packet)
        if action[:1] in ("s", "S"):
            return self.step(packet)
        begin, end = numbers_of(action)
        return self.stop_for(self.call.leave(begin, end, self.searches()), self.at_end)

    # ---- what is there

    def all_registers(self, _: str) -> str:
        return "".join(map(self.register_text, range(MOMENT + 1)))

    def register(self, packet: str) -> str:
        number = number_of(packet[1:])
        return self.register_text(number) if 0 <= number <= MOMENT else ERROR

    def register_text(self, number: int) -> str:
        if number == MOMENT:
            return self.call.now.to_bytes(8, "little").hex()
        state = self.call.state()
        return (state.pc if number == PC else state.registers[number]).to_bytes(4, "little").hex()

    def memory(self, packet: str) -> str:
        address, length = numbers_of(packet)
        return self.call.memory(address, length).hex() or (ERROR if length else "")

    # ---- breakpoints

    def insert_or_remove(self, packet: str) -> str:
        address, length = numbers_of(packet[2:])
        kind, is_inserted, watched = packet[1:2], packet[0] == "Z", Watched(address, length)
        if kind not in ("0", "1", "2") or (kind == "2" and is_inserted and not is_watchable(address, length)):
            return ""
        if not is_inserted:
            self.watches.pop(watched, None) if kind == "2" else self.breakpoints.pop(Breakpoint(kind, address), None)
        elif kind == "2":
            self.watches[watched] = self.call.changes_of(watched)
        else:
            self.breakpoints[Breakpoint(kind, address)] = self.call.hits_of(address)
        return "OK"

    def searches(self) -> list[MomentSearch]:
        """What stops a move: if two do at the same moment, the watchpoint is reported."""
        return [*self.watches.values(), *self.breakpoints.values()]

    # ---- moves

    def stop(self, reason: str) -> str:
        """A stop, with the registers that gdb asks for first."""
        self.stopped = TRAPPED if "watch" in reason else reason
        return reason + "".join(f"{number:02x}:{self.register_text(number)};" for number in FIRST_ASKED)

    def stop_for(self, found: Stop, at_edge: Callable[[], str]) -> str:
        """The stop for what a move found; None is an end of the call."""
        if isinstance(found, MemorySearch):
            return self.stop(f"{TRAPPED}watch:{found.start:x};")
        return at_edge() if found is None else self.stop(TRAPPED)

    def at_end(self) -> str:
        self.wire.show(self.call.end_text())
        signal = SIGNALS.get(self.call.end.end)
        return self.stop(f"{TRAPPED}replaylog:end;" if signal is None else signal.packet)

    def at_start(self) -> str:
        return self.stop(f"{TRAPPED}replaylog:begin;")

    def step(self, _: str) -> str:
        return self.stop_for(self.call.step(list(self.watches.values())), self.at_end)

    def go_on(self, _: str) -> str:
        return self.stop_for(self.call.go_on(self.searches()), self.at_end)

    def backward(self, packet: str) -> str:
        if packet == "bs":
            return self.stop_for(self.call.step_back(list(self.watches.values())), self.at_start)
        return self.stop_for(self.call.go_back(self.searches()), self.at_start) if packet == "bc" else ""


def words_of_hex(text: str) -> list[str]:
    """At most two words of a text in hex. A WrongPacketError for other letters."""
    try:
        return bytes.fromhex(text).decode(errors="replace").strip().split(None, 1)
    except ValueError as error:
        raise WrongPacketError from error
