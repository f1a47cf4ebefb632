"""What runs the cases, and how a run ends: what a machine may lack, cases side by side, the command line."""

import argparse
import enum
import functools
import os
import pickle
import random
import re
import shutil
import signal
import subprocess
import sys
import tempfile
import time
import traceback
from collections.abc import Callable, Iterator, Sequence
from dataclasses import dataclass, field
from pathlib import Path

# ---- what a machine may lack


class Tool(enum.Enum):
    """A tool: its name, how it reports its version, and the version that is needed if its bytes count."""

    CLANG = ("clang 14.0.6", ("clang", "--version"), "14.0.6")
    LLD = ("lld 14", ("ld.lld", "--version"), "14.")
    LLVM = ("llvm-addr2line", ("llvm-addr2line", "--version"), "")
    MAKE = ("make", ("make", "--version"), "")
    PATCH = ("patch", ("patch", "--version"), "")
    CC = ("cc", ("cc", "--version"), "")
    CPP = ("c++", ("c++", "--version"), "")
    NM = ("nm", ("nm", "--version"), "")
    STRACE = ("strace", ("strace", "--version"), "")
    SQLITE = ("sqlite3", ("sqlite3", "--version"), "")
    LIBSQLITE = ("libsqlite3-dev", ("cc", "-E", "-include", "sqlite3.h", "-xc", "/dev/null"), "")
    LIBLMDB = ("liblmdb-dev", ("cc", "-E", "-include", "lmdb.h", "-xc", "/dev/null"), "")
    ETCD = ("etcd", ("etcd", "--version"), "")
    GDB = ("gdb-multiarch 13", ("gdb-multiarch", "--version"), "13.")
    CARGO = ("cargo", ("/usr/bin/cargo", "--version"), "")
    RUSTC = ("rustc", ("/usr/bin/rustc", "--version"), "")
    VALGRIND = ("valgrind", ("valgrind", "--version"), "")
    ETCDCTL = ("etcdctl", ("etcdctl", "version"), "")
    CRYPTOGRAPHY = ("python3-cryptography", ("/usr/bin/python3", "-c", "import cryptography"), "")
    GCC = ("riscv64-unknown-elf-gcc 12.2.0", ("riscv64-unknown-elf-gcc", "--version"), "12.2.0")

    def __init__(self, label: str, asks: tuple[str, ...], version: str) -> None:
        self.label, self.asks, self.version = label, asks, version

    @functools.cache
    def is_there(self) -> bool:
        if not shutil.which(self.asks[0]):
            return False
        done = subprocess.run(self.asks, stdin=subprocess.DEVNULL, capture_output=True, encoding="utf-8", errors="replace")
        pattern = rf"(?<![\d.]){re.escape(self.version)}" if self.version else ""
        return done.returncode == 0 and bool(re.search(pattern, done.stdout + done.stderr))


CONTRACTS = (Tool.CLANG, Tool.LLD, Tool.MAKE)
"""The tools that build the contracts of the examples."""


# ---- a case: its name, what it needs, and what it does over the program. A difference ends it


TOP = Path(__file__).resolve().parents[2]
LONGEST_SHOWN = 300


class Differs(Exception):
    """What came is not what was wanted. Its text is one line."""


class Lacks(Exception):
    """The case needs something that is not there, which only the case itself can see."""


@dataclass(frozen=True)
class Setting:
    """What all cases of a run have."""

    program: Path
    """The program, by its whole path."""
    library: Path | None
    """The folder of the library for C, if it is built."""
    is_preview: bool
    """Whether the program is the unproved one, which is slow."""
    seed: int
    """Of what is made at random."""


@dataclass(frozen=True)
class Run:
    """A case as it runs: the setting, and a folder of its own."""

    setting: Setting
    place: Path
    notes: list[str] = field(default_factory=list)

    @property
    def program(self) -> Path:
        return self.setting.program

    def note(self, text: str) -> None:
        """A line that the run prints also if the case passes."""
        self.notes.append(text)


@dataclass(frozen=True)
class Case:
    """A case by its name, which has its group before a colon."""

    name: str
    run: Callable[[Run], None]
    needs: Sequence[Tool] = ()
    seconds: int = 150
    """It may take so long on a processor of its own, over the built program."""
    needs_library: bool = False
    needs_speed: bool = False
    """It takes minutes over the unproved program, and is left out there."""
    cost: float = 1
    """About how long it takes, in seconds: long cases begin first."""


def shown(value: object) -> str:
    """A value in one line, with its middle cut."""
    text = value if isinstance(value, str) and value.isprintable() else repr(value)
    half = LONGEST_SHOWN // 2
    return text if len(text) <= LONGEST_SHOWN else f"{text[:half]} .. {text[-half:]}"


def same(came: object, wanted: object, what: str = "") -> None:
    """Ends the case if what came is not what was wanted. Of two texts the first line that differs is shown."""
    if came == wanted:
        return
    of = f"{what}: " if what else ""
    if isinstance(came, str) and isinstance(wanted, str):
        lines, others = came.splitlines(), wanted.splitlines()
        number = next((n for n, (one, other) in enumerate(zip(lines, others)) if one != other), min(len(lines), len(others)))
        line, other = (part[number] if number < len(part) else "(no line)" for part in (lines, others))
        if line != other:
            raise Differs(f"{of}line {number + 1}: came {shown(line)}; wanted {shown(other)}")
    raise Differs(f"{of}came {shown(came)}; wanted {shown(wanted)}")


def holds(is_so: bool, came: object, wanted: str) -> None:
    """Ends the case if something does not hold, with what came and what was wanted."""
    if not is_so:
        raise Differs(f"came {shown(came)}; wanted {wanted}")


# ---- cases side by side: each in a process of its own, with a folder of its own, for no longer than it may take


SECONDS_BETWEEN_LOOKS = 0.02
CASE = "RVSTM_CASE"
"""Of the environment of all that a case starts: its name."""


@dataclass(frozen=True)
class Outcome:
    case: Case
    why: str = ""
    """Why it failed, in one line; empty if it passed."""
    lacks: str = ""
    """What the machine lacks for it."""
    notes: Sequence[str] = ()
    seconds: float = 0

    @property
    def is_passed(self) -> bool:
        return not self.why and not self.lacks


@dataclass
class Running:
    case: Case
    process: int
    place: Path
    began: float
    end: float
    """When it is killed."""
    status: int | None = field(default=None)


def lacks(case: Case, setting: Setting) -> str:
    """What the machine lacks for a case, by name; empty if it has all."""
    missing = [tool.label for tool in case.needs if not tool.is_there()]
    if case.needs_speed and setting.is_preview:
        missing.append("the built program")
    if case.needs_library and not setting.library:
        missing.append("the library for C")
    return ", ".join(missing)


def outcome_of(case: Case, run: Run) -> tuple[str, str, list[str]]:
    """Runs a case, and returns why it failed, what it lacks, and its notes."""
    try:
        case.run(run)
        return "", "", run.notes
    except Differs as error:
        return str(error).replace("\n", " | "), "", run.notes
    except Lacks as error:
        return "", str(error), run.notes
    except Exception as error:  # a mistake of the case itself fails it, and is shown
        traceback.print_exc()
        return f"{type(error).__name__}: {error}".replace("\n", " | "), "", run.notes


def begin(case: Case, setting: Setting, place: Path, seconds: float) -> Running:
    """Starts the process of a case: a group of its own, so that all that it starts can be ended."""
    sys.stdout.flush()
    sys.stderr.flush()
    now = time.monotonic()
    process = os.fork()
    if process == 0:
        try:
            os.setsid()
            os.environ[CASE] = case.name
            os.chdir(place)
            log = os.open(place.with_suffix(".log"), os.O_WRONLY | os.O_CREAT | os.O_TRUNC)
            os.dup2(log, 1)
            os.dup2(log, 2)
            os.dup2(os.open(os.devnull, os.O_RDONLY), 0)
            place.with_suffix(".outcome").write_bytes(pickle.dumps(outcome_of(case, Run(setting, place))))
            sys.stdout.flush()
            sys.stderr.flush()
        finally:
            os._exit(0)
    return Running(case, process, place, now, now + seconds)


def has_ended(running: Running) -> bool:
    """Whether a case has ended by now. One that takes too long is killed, with all that it started."""
    ended, status = os.waitpid(running.process, os.WNOHANG)
    if not ended and time.monotonic() > running.end:
        kill(running.process)
        ended, status = os.waitpid(running.process, 0)
    if ended:
        running.status = status
        kill(running.process)
    return bool(ended)


def kill(group: int) -> None:
    """Ends the processes of a group that are left."""
    try:
        os.killpg(group, signal.SIGKILL)
    except (ProcessLookupError, PermissionError):
        pass


def result(running: Running) -> Outcome:
    seconds = time.monotonic() - running.began
    try:
        why, missing, notes = pickle.loads(running.place.with_suffix(".outcome").read_bytes())
        return Outcome(running.case, why, missing, notes, seconds)
    except (OSError, EOFError, pickle.UnpicklingError):
        was_late = time.monotonic() > running.end
        came = f"no end after {running.end - running.began:.0f} seconds" if was_late else f"status {running.status} of its process"
        return Outcome(running.case, f"came {came}; wanted its end", seconds=seconds)


def outcomes_of(cases: Sequence[Case], setting: Setting, processors: int, seconds_of: Callable[[Case], float]) -> Iterator[Outcome]:
    """Runs cases, as many at once as there are processors, the longest first, and yields each outcome as it comes."""
    waiting = sorted(cases, key=lambda case: case.cost)
    running: list[Running] = []
    with tempfile.TemporaryDirectory(prefix="rvstm-cases-", ignore_cleanup_errors=True) as name:
        try:
            while waiting or running:
                while waiting and len(running) < processors:
                    case = waiting.pop()
                    missing = lacks(case, setting)
                    if missing:
                        yield Outcome(case, lacks=missing)
                        continue
                    place = Path(name) / f"case{len(waiting)}"
                    place.mkdir()
                    running.append(begin(case, setting, place, seconds_of(case)))
                ended = [one for one in running if has_ended(one)]
                running = [one for one in running if one not in ended]
                yield from map(result, ended)
                if not ended:
                    time.sleep(SECONDS_BETWEEN_LOOKS)
        finally:
            for one in running:
                kill(one.process)


# ---- the command line of the cases, and what a run prints


PREVIEW = TOP / "crates/rvstm/out/preview/rvstm"
LIBRARY = TOP / "crates/rvstm_c/out/embedded"
SLOWNESS = 8
"""So many times as long a case may take over the unproved program, which tests each of its steps."""


def parser() -> argparse.ArgumentParser:
    made = argparse.ArgumentParser(
        prog="tests/run",
        description="Runs what users run, over a program that is there. Proves nothing, and needs neither root nor the network. "
        "Prints a line for each case that fails or is left out, and last `N passed, M failed, K skipped`.",
    )
    made.add_argument("program", nargs="?", type=Path, metavar="PROGRAM", help="the built program")
    made.add_argument("--preview", action="store_true", help="the unproved program, which is made first if it is not there")
    made.add_argument("--only", metavar="WORD", default="", help="run only cases whose name contains WORD")
    made.add_argument("--jobs", type=int, metavar="N", help="so many cases at once (one for each processor)")
    made.add_argument("--seed", type=int, metavar="N", help="of what is made at random; it is printed")
    made.add_argument("--times", action="store_true", help="print each case with its time")
    return made


def setting_of(given: argparse.Namespace) -> Setting:
    """What the cases run over. The unproved program is made if it is not there."""
    if given.preview:
        make_preview()
    program: Path = PREVIEW if given.preview else given.program
    if not program.is_file() or not os.access(program, os.X_OK):
        raise SystemExit(f"tests/run: {program}: no program")
    seed = random.randrange(1 << 32) if given.seed is None else given.seed
    has_library = (LIBRARY / "librvstm.a").is_file() and (LIBRARY / "librvstm.so").is_file()
    return Setting(program.resolve(), LIBRARY if has_library else None, given.preview, seed)


def make_preview() -> None:
    """Makes the unproved program; at once if it is there already, and no source has changed."""
    words = [str(TOP / "tools/rvstm-tools"), "preview", "counter"]
    status = os.spawnvp(os.P_WAIT, "sh", ["sh", "-c", '"$@" > /dev/null', "sh", *words])
    if status:
        raise SystemExit(f"tests/run: {' '.join(words)} ended with status {status}")


def lines_of(outcome: Outcome, with_times: bool) -> list[str]:
    """The lines that a run prints of a case."""
    lines = [f"{outcome.case.name}: {note}" for note in outcome.notes]
    if outcome.why:
        lines.append(f"failed: {outcome.case.name}: {outcome.why}")
    elif outcome.lacks:
        lines.append(f"skipped, for want of {outcome.lacks}: {outcome.case.name}")
    if with_times and not outcome.lacks:
        lines.append(f"{outcome.seconds:6.1f} s  {outcome.case.name}")
    return lines


def sums(outcomes: Sequence[Outcome], more_failed: int = 0) -> str:
    passed, skipped = sum(one.is_passed for one in outcomes), sum(bool(one.lacks) and not one.why for one in outcomes)
    return f"{passed} passed, {len(outcomes) - passed - skipped + more_failed} failed, {skipped} skipped"


def main(groups: Sequence[Sequence[Case]], words: Sequence[str] | None = None) -> int:
    """Runs the cases of all groups. The last line always comes, except after a wrong command line."""
    given = parser().parse_args(words)
    if (given.program is None) != given.preview:
        parser().error("PROGRAM, or --preview")
    signal.signal(signal.SIGTERM, signal.default_int_handler)
    began, outcomes, more_failed = time.monotonic(), list[Outcome](), 0
    try:
        setting = setting_of(given)
        cases = [case for group in groups for case in group if given.only in case.name]
        processors = given.jobs or len(os.sched_getaffinity(0))
        print(f"{len(cases)} cases on {processors} processors, seed {setting.seed}", flush=True)
        slowness = SLOWNESS if setting.is_preview else 1
        for outcome in outcomes_of(cases, setting, processors, lambda case: case.seconds * slowness):
            outcomes.append(outcome)
            for line in lines_of(outcome, given.times):
                print(line, flush=True)
        more_failed += not cases
    except KeyboardInterrupt:
        more_failed += 1
        print("failed: the run was interrupted")
    except (SystemExit, OSError) as error:
        more_failed += 1
        print(f"failed: {error}")
    slowest = sorted(outcomes, key=lambda one: -one.seconds)[:5]
    print(f"{time.monotonic() - began:.0f} s; longest: " + ", ".join(f"{one.case.name} {one.seconds:.0f} s" for one in slowest))
    line = sums(outcomes, more_failed)
    print(line, flush=True)
    return 0 if ", 0 failed," in line else 1
