"""gdb's remote protocol: packets by GDB's manual, and the moves of a call that a small program replays."""

import contextlib
import os
import random
import sys
import unittest
import xml.etree.ElementTree
from collections.abc import Iterator
from pathlib import Path
from typing import Any
from unittest import mock

from rvstm_tools.debugging import gdb, moments, packets
from rvstm_tools.debugging.gdb import Server
from rvstm_tools.debugging.moments import AnyMoment, DebuggedCall, EndOfCall, InterruptedMove, MomentSearch, Reach, Stop, Watched
from rvstm_tools.debugging.packets import Ends, Wire
from rvstm_tools.debugging.sessions import CallOf
from rvstm_tools.debugging.sources import Inlined
from rvstm_tools.errors import UserError
from rvstm_tools.texts.results import End
from rvstm_tools.texts.views import View
from unit.helpers import InFolder
from unit.test_elf import CODE, elf_file

# A call of 61 steps: three instructions again and again, and RETURN. The first one of the three counts a byte up.
ANSWERS = """\
LAST = 60
at = 0
def pc(moment):
    return 0x1000c if moment >= LAST else 0x10000 + 4 * (moment % 3)
def byte(moment):
    return (min(moment, LAST) + 2) // 3
def place():
    return "%d %08x %s" % (at, pc(at), "ecall" if at >= LAST else "addi x10,x10,1")
def answer(line):
    global at
    word, *rest = line.split()
    said = None
    if word == "s":
        said = None if at < LAST + 1 else "refused AtEnd 2"
        at = min(at + 1, LAST + 1)
    elif word == "g":
        at = next((m for m in range(at + 1, LAST + 1) if pc(m) == int(rest[0], 16)), LAST + 1)
    elif word == "c":
        first, length = int(rest[0], 16), int(rest[1])
        has = first <= 0x100000 < first + length
        at = next((m for m in range(at + 1, LAST + 1) if has and byte(m) != byte(m - 1)), LAST + 1)
    elif word == "t":
        said = None if int(rest[0]) <= LAST + 1 else "refused AtEnd 2"
        at = min(at, LAST + 1) if said else int(rest[0])
    elif word == "e":
        said = "ends ENDED 639 61"
    elif word == "r":
        said = "regs " + " ".join("%08x" % {10: at, 17: 0 if at < LAST else 3}.get(n, n) for n in range(32))
    elif word == "m":
        said = "%02x" % byte(at) + "00" * (int(rest[1]) - 1) if int(rest[0], 16) == 0x100000 else "00" * int(rest[1])
    elif word == "v":
        said = "value 05" if rest[0].startswith("61") else "absent"
    return place() if said is None else said
"""
DEBUG = f"""\
#!{sys.executable} -IS
import sys
{ANSWERS}
if sys.argv[1] == "dis":
    sys.exit("rvstm: elf BadMagic 2" if "HOW" == "bad" else print("00010000 00150513 addi x10,x10,1\\n00010008 00000073 ecall\\n0001000c 00000073 ecall"))
for line in sys.stdin:
    print(answer(line), flush=True)
"""
REGISTERS = "01:01000000;02:02000000;08:08000000;20:{pc};21:{moment};"


TRAP = 5
"""GDB's number of the signal by which a call stops at a breakpoint or after a step."""
INTERRUPT = 2
"""GDB's number of the signal by which a person stops a call."""


def stop(pc: int, moment: int, reason: str = "", signal: int = TRAP) -> str:
    place = REGISTERS.format(pc=pc.to_bytes(4, "little").hex(), moment=moment.to_bytes(8, "little").hex())
    return f"T{signal:02x}{reason}{place}"


class Replayed(InFolder):
    def setUp(self) -> None:
        super().setUp()
        self.serve()

    def serve(self, end: str = "returned 6869", how: str = "") -> None:
        self.block = self.write("a.block", "rvblock 1\nprogram 0 a.elf\ncall 0 1000 -\n")
        program = Path(self.write("rvstm", DEBUG.replace("ENDED", end).replace("HOW", how)))
        program.chmod(0o755)
        self.shown: list[str] = []
        self.heard = 0
        wire = mock.Mock(hear=self.hear, show=self.shown.append)
        self.server = Server(wire, lambda hear: DebuggedCall(CallOf(program, self.block, 0), View(), hear))
        self.addCleanup(self.server.close)

    def hear(self) -> None:
        self.heard -= 1
        if self.heard == 0:
            raise InterruptedMove

    def ask(self, *sent: str) -> str:
        return [self.server.answer(packet) for packet in sent][-1]


class Moves(Replayed):
    def test_steps(self) -> None:
        self.assertEqual(self.ask("?"), stop(0x10000, 0))
        self.assertEqual(self.ask("s"), stop(0x10004, 1))
        self.assertEqual(self.ask("vCont;s:1"), stop(0x10008, 2))
        self.assertEqual(self.ask("bs"), stop(0x10004, 1))
        self.assertEqual(self.ask("bs", "bs"), stop(0x10000, 0, "replaylog:begin;"))
        self.assertEqual((self.ask("vCont;S05:1"), self.ask("bx")), (stop(0x10004, 1), ""))

    def test_to_the_end_and_back(self) -> None:
        self.assertEqual(self.ask("c"), stop(0x1000C, 60, "replaylog:end;"))
        self.assertEqual(self.shown, ['call 0 of a.block: returned "hi"  6869  26984, 61 steps, gas 639\n'])
        self.assertEqual(self.ask("s"), stop(0x1000C, 60, "replaylog:end;"))
        self.assertEqual(self.ask("bc"), stop(0x10000, 0, "replaylog:begin;"))

    def test_signals_of_the_end(self) -> None:
        """GDB's manual numbers them: ABRT 6, ILL 4, BUS 10, SEGV 11, SYS 12, XCPU 24, XFSZ 25. They are said again if gdb asks again."""
        for end, signal in {"reverted": 6, "illegal": 4, "misaligned": 10, "memory-fault": 11, "bad-length": 12, "too-many-writes": 25,
                            "out-of-gas": 24}.items():
            self.serve(f"{end} -")
            self.assertEqual(self.ask("c"), stop(0x1000C, 60, signal=signal))
            self.assertEqual(self.ask("?"), stop(0x1000C, 60, signal=signal))
            self.assertEqual(self.shown, [f"call 0 of a.block: {end}, 61 steps, gas 639\n"])

    def test_breakpoints(self) -> None:
        self.assertEqual(self.ask("Z0,10004,4"), "OK")
        self.assertEqual(self.ask("c"), stop(0x10004, 1))
        self.assertEqual(self.ask("vCont;C05:1"), stop(0x10004, 4))
        self.assertEqual(self.ask("bc"), stop(0x10004, 1))
        self.assertEqual(self.ask("bc"), stop(0x10000, 0, "replaylog:begin;"))
        self.assertEqual(self.ask("z0,10004,4"), "OK")
        self.assertEqual(self.ask("c"), stop(0x1000C, 60, "replaylog:end;"))

    def test_all_of_many_hits(self) -> None:
        with mock.patch.object(moments, "REACH", Reach(far=4, span=4, times_more=2, few_steps=0)):
            self.ask("Z1,10000,4")
            places = [self.ask("c") for _ in range(19)]
            self.assertEqual(places, [stop(0x10000, 3 * number) for number in range(1, 20)])
            places = [self.ask("bc") for _ in range(19)]
            self.assertEqual(places, [stop(0x10000, 3 * number) for number in range(18, -1, -1)])

    def test_changes_of_memory(self) -> None:
        self.assertEqual(self.ask("Z2,100000,4"), "OK")
        self.assertEqual(self.ask("c"), stop(0x10004, 1, "watch:100000;"))
        self.assertEqual(self.ask("c"), stop(0x10004, 4, "watch:100000;"))
        self.assertEqual(self.ask("bc"), stop(0x10000, 3, "watch:100000;"))  # before the change
        self.assertEqual(self.ask("s"), stop(0x10004, 4, "watch:100000;"))
        self.assertEqual(self.ask("bs"), stop(0x10000, 3, "watch:100000;"))
        self.assertEqual(self.ask("?"), stop(0x10000, 3))
        self.assertEqual(self.ask("z2,100000,4", "c"), stop(0x1000C, 60, "replaylog:end;"))

    def test_ranges(self) -> None:
        self.assertEqual(self.ask("vCont;r10000,10008:1"), stop(0x10008, 2))
        self.assertEqual(self.ask("vCont;r10000,1000c:1"), stop(0x1000C, 60))
        self.assertEqual(self.ask("vCont;r10000,20000:1"), stop(0x1000C, 60, "replaylog:end;"))

    def test_interrupts(self) -> None:
        self.heard = 1
        self.assertEqual(self.ask("c"), stop(0x10000, 0, signal=INTERRUPT))
        self.ask("Z0,20000,4")
        self.heard = 2
        self.assertEqual(self.ask("c"), stop(0x10000, 0, signal=INTERRUPT))
        self.heard = 1
        self.assertEqual(self.ask("p20"), "00000100")  # no move is stopped
        self.assertEqual(self.ask(f"qRcmd,{b'calls'.hex()}"), "E.interrupted")

    def test_its_processes_end_with_it(self) -> None:
        self.ask("Z0,10004,4", "Z2,100000,4", "c")
        opened = self.server.call.opened
        self.server.close()
        self.assertEqual([place.process.wait(5) for place in opened], [-9, -9])


class WithoutProcess(AnyMoment):
    """A session of the same answers without a process, for many moves."""

    def __init__(self, _: CallOf) -> None:
        self.names: dict[str, Any] = {}
        exec(ANSWERS.replace("ENDED", "returned 6869"), self.names)
        self.said: list[bytes] = []
        self.take(self.answer_bytes("w"))

    def give(self, data: bytes) -> bool:
        self.said += [self.names["answer"](line).encode() for line in data.decode().splitlines()]
        return True

    def lines(self, count: int) -> Iterator[bytes]:
        part, self.said = self.said[:count], self.said[count:]
        return iter(part)

    def kill(self) -> None:
        """There is nothing to end."""


class AnyMoves(Replayed):
    """Searches that look at a few moments at a time, from any moment on, find what a look at all of them finds."""

    PCS = [*(0x10000 + 4 * (moment % 3) for moment in range(60)), 0x1000C]
    CHANGED = range(1, 61, 3)

    def setUp(self) -> None:
        super().setUp()
        self.draw = random.Random(1)
        self.enterContext(mock.patch.object(moments, "REACH", Reach(far=4, span=4, times_more=2, few_steps=2)))
        self.enterContext(mock.patch.object(moments, "AnyMoment", WithoutProcess))

    def searches(self, call: DebuggedCall) -> dict[MomentSearch, tuple[list[int], list[int]]]:
        """Some searches: where each stops on the way forward, and on the way back, which is before a change."""
        found: dict[MomentSearch, tuple[list[int], list[int]]] = {}
        for start in self.draw.sample((0x100000, 0x100040), self.draw.randrange(3)):
            changed = list(self.CHANGED) if start == 0x100000 else []
            found[call.changes_of(Watched(start, 4))] = changed, [moment - 1 for moment in changed]
        for address in self.draw.sample((0x10000, 0x10004, 0x10008, 0x1000C, 0x20000), self.draw.randrange(4)):
            hits = [moment for moment, pc in enumerate(self.PCS) if pc == address]
            found[call.hits_of(address)] = hits, hits
        return found

    def wanted(self, now: int, is_back: bool, searches: dict[MomentSearch, tuple[list[int], list[int]]]) -> tuple[int, Stop]:
        """The nearest moment that a search has, and the first of the searches that have it."""
        met = [(moment, search) for search, ways in searches.items() for moment in ways[is_back] if (moment < now if is_back else moment > now)]
        nearest = (max if is_back else min)((moment for moment, _ in met), default=-1 if is_back else 61)
        return nearest, next((search for moment, search in met if moment == nearest), None)

    def test_moves(self) -> None:
        for number in range(400):
            if number % 20 == 0:
                self.serve()
            call, now = self.server.call, self.draw.randrange(61)
            call.now, searches, move = now, self.searches(self.server.call), self.draw.choice(("go_on", "go_back", "step", "step_back", "leave", "up_to"))
            stop, search = self.wanted(now, "back" in move, searches)
            with self.subTest(number=number, move=move, now=now):
                if move == "up_to":
                    address = self.draw.choice((0x10000, 0x10008, 0x1000C))
                    self.assertEqual(call.hits_of(address).up_to(now), [moment for moment in range(now + 1) if self.PCS[moment] == address])
                elif move == "leave":
                    end = self.draw.choice((0x10004, 0x10008, 0x1000C))
                    left = next(moment for moment in range(now + 1, 62) if moment > 60 or not 0x10000 <= self.PCS[moment] < end)
                    found = call.leave(0x10000, end, list(searches))
                    self.assertEqual((found, call.now), (search, stop) if stop <= left and stop < 61 else (None if left > 60 else moments.RANGE_LEFT, min(left, 60)))
                elif move in ("step", "step_back"):
                    after = now + (-1 if "back" in move else 1)
                    at_end = not 0 <= after <= 60
                    found = getattr(call, move)(list(searches))
                    self.assertEqual((found, call.now), (None, now) if at_end else (search if stop == after else moments.NO_STOP, after))
                else:
                    self.assertEqual((getattr(call, move)(list(searches)), call.now), (search, max(0, min(60, stop))))
                row = call.state()
                self.assertEqual((row.moment, row.registers[10], row.pc), (call.now, call.now, self.PCS[call.now]))
                self.assertEqual(call.memory(0x100000, 1), bytes([(call.now + 2) // 3]))


class Questions(Replayed):
    def monitor(self, line: str) -> str:
        return bytes.fromhex(self.ask(f"qRcmd,{line.encode().hex()}")).decode()

    def test_registers(self) -> None:
        text = self.ask("g")
        self.assertEqual(len(text), 8 * 33 + 16)
        self.assertEqual(text[:16], "0000000001000000")
        self.assertEqual(text[8 * 32 :], "00000100" + "0000000000000000")
        self.assertEqual(self.ask("s", "p20"), "04000100")
        self.assertEqual(self.ask("p21"), "0100000000000000")
        self.assertEqual([self.ask(f"p{number}") for number in ("0", "20".zfill(16))], ["00000000", "04000100"])
        for number in ("22", "20".zfill(17), "2_0"):
            self.assertEqual(self.ask(f"p{number}"), "E01")
        registers = xml.etree.ElementTree.fromstring(gdb.description()).findall(".//reg")
        self.assertEqual([reg.get("name") for reg in registers], [
            "zero", "ra", "sp", "gp", "tp", "t0", "t1", "t2", "fp", "s1", *(f"a{number}" for number in range(8)),
            *(f"s{number}" for number in range(2, 12)), "t3", "t4", "t5", "t6", "pc", "moment"])

    def test_lines_of_another_program(self) -> None:
        self.enterContext(contextlib.chdir(self.folder))
        self.write("a.elf", elf_file())
        self.write("a.lines.elf", elf_file())
        self.assertEqual(self.ask("?"), stop(0x10000, 0))
        self.serve()
        self.write("a.lines.elf", elf_file().replace(CODE, CODE[::-1]))
        with self.assertRaises(UserError) as caught:
            self.ask("?")
        message = "a.lines.elf: not the program of a.elf with its lines: make both from one source with one compiler"
        self.assertEqual(str(caught.exception), message)

    def test_memory(self) -> None:
        self.assertEqual(self.ask("m100000,2"), "0000")
        self.assertEqual(self.ask("s", "m100000,2"), "0100")
        self.assertEqual(self.ask("m10fffe,8"), "0000")  # the end of memory
        self.assertEqual([self.ask(f"m{address}") for address in ("0,4", "110000,1", "10000,1")], ["E01", "E01", "00"])
        self.assertEqual(self.ask("m100000,0"), "")

    def test_commands(self) -> None:
        self.assertEqual(self.monitor("end"), 'call 0 of a.block: returned "hi"  6869  26984, 61 steps, gas 639\n')
        self.assertEqual(self.monitor("go 0000000000000007"), "moment 7 of 60, pc 00010004\n")
        self.assertEqual(self.monitor("go 99"), "moment 60 of 60, pc 0001000c\n")
        self.assertEqual(self.monitor("value key:a"), '"a": 05  5\n')
        self.assertEqual(self.monitor(f"value {'00' * 32}"), "00: absent\n")
        self.assertEqual(self.monitor("value 00"), "00: a key has 32 bytes, and this is 1\n")
        self.assertEqual(self.monitor(f"value {'00' * 33}"), f"{'00' * 33}: a key has at most 32 bytes, and this is 33\n")
        self.assertIn("0g: not bytes in hex, ", self.monitor("value 0g"))
        self.assertEqual(self.monitor("places a.c:7"), "there is no a.lines.elf: make -f sdk/Makefile a.lines.elf makes it\n")
        for line in ("", "go", "go x", "go -1", "go \u0663", "end now", "what", "go 99999999999999999999"):
            self.assertEqual(self.monitor(line), gdb.COMMANDS)
        self.server.call.view.take_shape(["input", "ping", "bytes"])
        self.assertEqual(self.monitor("end"), 'call 0 of a.block, ping(-): returned "hi"  6869  26984, 61 steps, gas 639\n')

    def test_storage_calls(self) -> None:
        """A READ at each third moment, of a key at x10 into x11, answers in x10 how many bytes it copied; at last a RETURN of x11 bytes."""
        self.assertEqual(self.monitor("calls"), "no storage calls\n")
        read = "{:>8} 00010008 READ 00 up to 12 bytes: {}\n"
        two = read.format(2, "000000") + read.format(5, "000000000000")
        self.monitor("go 7")
        self.assertEqual(self.monitor("calls"), two)
        self.monitor("go 60")
        calls = self.monitor("calls").splitlines(keepends=True)
        self.assertEqual(("".join(calls[:2]), len(calls), calls[-1]), (two, 21, f"{60:>8} 0001000c RETURN {'00' * 11}\n"))
        self.monitor("go 59")
        self.assertEqual(self.monitor("calls").splitlines(keepends=True), calls[:-1])
        self.serve(how="bad")
        with self.assertRaisesRegex(UserError, "^rvstm: elf BadMagic 2$"):
            self.monitor("calls")

    def test_places_of_a_line(self) -> None:
        call = self.server.call
        for chains, text in ({0x10000: [Inlined("f", "/src/a.c:7")], 0x10004: [Inlined("f", "/src/a.c:8")], 0x10008: [Inlined("f", "/src/a.c:7")]}, "00010000\n00010008\n"), (
                {0x10000: [Inlined("f", "/src/a.c:8")]}, "a.c:7: no code is of this line\n"):
            with mock.patch.object(type(call), "chains", chains):
                self.assertEqual(self.monitor("places a.c:7"), text)

    def test_queries(self) -> None:
        self.assertIn("qXfer:features:read+", self.ask("qSupported:multiprocess+"))
        self.assertEqual(self.ask("qXfer:features:read:target.xml:0,10"), f"m{gdb.description()[:16]}")
        end = len(gdb.description())
        self.assertEqual(self.ask(f"qXfer:features:read:target.xml:0,{end:x}"), f"l{gdb.description()}")
        self.assertEqual(self.ask(f"qXfer:features:read:target.xml:{end - 4:x},ffff"), f"l{gdb.description()[-4:]}")
        self.assertEqual(self.ask("qUnknown"), "")
        self.assertEqual(self.ask("vMustReplyEmpty"), "")
        self.assertEqual(self.ask("vCont?"), "vCont;c;C;s;S;r")
        self.assertEqual(self.ask("!"), "")

    def test_nothing_can_be_changed(self) -> None:
        for packet in ("G00", "P1=00", "M0,1:00", "X0,1:a"):
            self.assertEqual(self.ask(packet), "E.the call is replayed, so nothing of it can be changed")

    def test_hostile_packets(self) -> None:
        for packet in (
            "m", "m1", "mx,y", "m1,", "m-1,2", "m1,-2", "p", "px", "p-1", "Z", "Z0", "Z0,x,4", "Z2,0,", "z2", "qRcmd,xx", "qRcmd,1",
            "qXfer:features:read:target.xml:", "vCont;r", "vCont;rx,y", "m" + "f" * 5000 + ",1", "m1_0,1", "vCont;", "Z9,0,0",
        ):
            with self.subTest(packet[:30]):
                self.assertIn(self.ask(packet), ("", "E01"))
        self.assertEqual([self.ask(packet) for packet in ("Z2,0,4", "z2,0,4", "Z0,0,4", "Z0,10004,4,X1", "Z0,-1,4")], ["", "OK", "OK", "OK", "E01"])
        self.assertEqual(self.ask("Z2,100000,1001"), "")  # longer than one line shows


class OverAWire(unittest.TestCase):
    """Bytes of packets: the checksum of `OK` is 9a, that of `?` 3f."""

    def setUp(self) -> None:
        self.now = 0.0
        here, self.gdb_output = os.pipe()
        self.gdb_input, there = os.pipe()
        self.wire = Wire(Ends(here, there), lambda: self.now)
        for end in (here, self.gdb_input, there):
            self.addCleanup(os.close, end)
        self.is_closed = False
        self.addCleanup(self.close)

    def close(self) -> None:
        if not self.is_closed:
            os.close(self.gdb_output)
        self.is_closed = True

    def give(self, data: bytes) -> None:
        os.write(self.gdb_output, data)

    def said(self) -> bytes:
        return os.read(self.gdb_input, 65536)

    def test_packets_and_acknowledgements(self) -> None:
        self.give(b"+$?#3f$g#67")
        self.assertEqual((self.wire.packet(), self.said()), ("?", b"+"))
        self.assertEqual((self.wire.packet(), self.said()), ("g", b"+"))
        self.wire.send("OK")
        self.assertEqual(self.said(), b"$OK#9a")

    def test_signs_are_escaped(self) -> None:
        self.wire.send("a}b#c$d*")
        self.assertEqual(self.said(), b"$a}]b}\x03c}\x04d}\x0a#" + packets.checksum_of(b"a}]b}\x03c}\x04d}\x0a"))
        self.wire.show("hi")
        self.assertEqual(self.said(), b"$O6869#" + packets.checksum_of(b"O6869"))

    def test_wrong_checksums(self) -> None:
        self.give(b"$?#00$?#3F")
        self.assertEqual(self.wire.packet(), "?")
        self.assertEqual(self.said(), b"-+")
        self.wire.acknowledges = False
        self.give(b"$g#00")
        self.assertEqual(self.wire.packet(), "g")

    def test_a_cut_at_each_byte(self) -> None:
        packet = b"$m100000,4#"
        for end in range(len(packet)):
            here, there = os.pipe()
            os.write(there, packet[:end])
            os.close(there)
            self.assertIsNone(Wire(Ends(here, here)).packet())
            os.close(here)

    def test_floods(self) -> None:
        self.wire.acknowledges = False
        self.wire.data = b"$" + b"x" * (packets.LONGEST_PACKET + 1)
        self.give(b"$?#3f")
        self.assertEqual(self.wire.packet(), "?")
        self.give(b"+" * 1000 + b"\x00\xff$g#67")
        self.assertEqual(self.wire.packet(), "g")

    def test_interrupts(self) -> None:
        self.wire.hear()
        self.give(b"\x03")
        with self.assertRaises(InterruptedMove):
            self.wire.hear()
        self.wire.hear()  # one interrupt stops one move
        self.give(b"\x03$c#63")
        self.assertEqual(self.wire.packet(), "c")
        self.now = 0.9
        with self.assertRaises(InterruptedMove):
            self.wire.hear()
        self.give(b"\x03$c#63")
        self.assertEqual(self.wire.packet(), "c")
        self.now = 2.0  # too late
        self.wire.hear()

    def test_a_server_over_it(self) -> None:
        self.give(b"$qC#b4$QStartNoAckMode#b0$qC#00$D#44")
        Server(self.wire, lambda _: self.fail("no call is opened")).serve()
        self.assertEqual(self.said(), b"+$QC1#c5+$OK#9a$QC1#c5$OK#9a")

    def test_a_server_at_the_end(self) -> None:
        self.give(b"$k#6b")
        Server(self.wire, lambda _: self.fail("no call is opened")).serve()
        self.assertEqual(self.said(), b"+")
        self.close()
        Server(self.wire, lambda _: self.fail("no call is opened")).serve()


class Ending(unittest.TestCase):
    def test_ends(self) -> None:
        self.assertEqual(moments.end_of("ends returned 00ff 639 14"), EndOfCall(End.RETURNED, b"\0\xff", 639, 14))
        self.assertEqual(moments.end_of("ends bad-length - 5 1"), EndOfCall(End.BAD_LENGTH, b"", 5, 1))
        for answer in ("", "what", "ends returned 0 6 1", "ends nonsense - 6 1", "ends returned - x 1", "ends returned - 6"):
            with self.subTest(answer), self.assertRaises(UserError):
                moments.end_of(answer)

    def test_what_can_be_watched(self) -> None:
        for start, length, can in (
            (0x10000, 1, True), (0x10000, 4096, True), (0x10000, 4097, False), (0xFFFF, 4, False), (0x10FFFF, 1, True),
            (0x10FFFF, 2, False), (0x10000, 0, False),
        ):
            self.assertIs(moments.is_watchable(start, length), can)
