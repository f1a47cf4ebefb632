"""Copies of the file of a session, as docs/operators.md has them: of a stopped session, of FILE alone, and put back."""

import random
import re
import shutil
import signal
import time
from pathlib import Path

from gate.clients import NO_DIGEST, ClientSession, asks
from gate.runner import Case, Run, holds, same

COPIES = 12
LONGEST_WAIT = 1.3  # at most, from a frame to a stop, in times of what a frame lasts
KEYS = 300
SECONDS_TO_STOP = 30
STATE = re.compile(rb"height (\d+)\n.*digest ([0-9a-f]{64})\n", re.S)


def entries(height: int) -> str:
    """The storage of a height: all keys have it as their value."""
    return "".join(f"store {key:064x} {height:04x}\n" for key in range(KEYS))


def frame(height: int) -> bytes:
    return asks("frame", f"rvblock 1\n{entries(height)}".encode())


def is_stopped(stat: Path) -> bool:
    try:
        return stat.read_text(encoding="utf-8").rpartition(")")[2].split()[0] == "T"
    except (FileNotFoundError, ProcessLookupError):
        return True


def stop(session: ClientSession) -> None:
    """Stops a session. Each of its threads stops by itself."""
    session.process.send_signal(signal.SIGSTOP)
    until = time.monotonic() + SECONDS_TO_STOP
    tasks = Path(f"/proc/{session.process.pid}/task")
    while not all(map(is_stopped, tasks.glob("*/stat"))):
        holds(time.monotonic() < until, "a thread that runs", "state T of all threads")


def copy(path: Path, to: Path) -> None:
    for ending in ("", "-wal"):
        shutil.copy(f"{path}{ending}", f"{to}{ending}")


def height_of(run: Run, path: Path) -> int:
    """The height of the session that a file has. Its storage is that of this height."""
    with ClientSession(run.program, "--store", path) as session:
        found, dump = STATE.search(session.ask(asks("state"))), session.ask(asks("dump"))
        assert found
        height = int(found[1])
        wanted = f"rvblock 2\ngas 1\n{entries(height) if height else ''}"
        same(dump.partition(b"\n")[2].decode(), wanted, f"the dump at height {height}")
        same(session.ended(), (b"", "", 0))
    holds(bool(height) or found[2] == NO_DIGEST, found[2], "no digest at height 0")
    return height


def stopped(run: Run) -> None:
    """A copy of both files, made while all threads are stopped, opens before or after the frame that runs."""
    choice, path, found = random.Random(run.setting.seed), run.place / "file", list[int]()
    run.note(f"seed {run.setting.seed}")
    with ClientSession(run.program, "--workers", "2", "--store", path) as session:
        session.ask(frame(1))
        began = time.monotonic()
        session.ask(frame(2))
        lasts = time.monotonic() - began
        assert session.process.stdin and session.process.stdout
        for height in range(2, 2 + COPIES):
            session.process.stdin.write(frame(height + 1))
            session.process.stdin.flush()
            time.sleep(choice.uniform(0, LONGEST_WAIT * lasts))
            stop(session)
            copy(path, run.place / "copy")
            session.process.send_signal(signal.SIGCONT)
            same(session.process.stdout.readline(), b"ok 4\n")
            same(session.process.stdout.read(4), b"end\n")
            found.append(height_of(run, run.place / "copy") - height)
            holds(found[-1] in (0, 1), found[-1], "a copy of the height before or after the frame that ran")
    run.note(f"{found.count(0)} copies of the height before, {found.count(1)} of the height after")


def alone(run: Run) -> None:
    """What nothing reports: a copy of FILE alone is an older session. A request that finds FILE moved is not kept. A backup beside
    another session's FILE-wal is refused, and opens if that is removed."""
    path, backup = run.place / "file", run.place / "backup"
    with ClientSession(run.program, "--store", path) as session:
        session.ask(frame(1))
        session.ask(frame(2))
        shutil.copy(path, run.place / "alone")
        same(height_of(run, run.place / "alone"), 0, "the height of FILE alone")
        stop(session)
        copy(path, backup)
        session.process.send_signal(signal.SIGCONT)
        path.rename(run.place / "moved")
        same(session.ended(frame(3)), (b"", "rvstm: store Unreadable 3\n", 1), "a frame after FILE was moved")
    (run.place / "moved").rename(path)
    same(height_of(run, path), 2, "the height after FILE was put back")
    same(height_of(run, backup), 2, "the height of the backup, which has no log then")
    with ClientSession(run.program, "--store", path) as session:
        for height in (3, 4):
            session.ask(frame(height))
        session.kill()
    shutil.copy(backup, path)
    with ClientSession(run.program, "--store", path) as session:
        run.note(f"beside another session's FILE-wal: {session.ended(b'')[1].strip() or 'opened'}")
    shutil.copy(backup, path)
    Path(f"{path}-wal").unlink(missing_ok=True)
    same(height_of(run, path), 2, "the height of the backup, without that log")


def cases() -> list[Case]:
    return [
        Case("copies: of a stopped session", stopped, cost=3),
        Case("copies: of FILE alone, and put back", alone, cost=2),
    ]
