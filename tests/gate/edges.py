"""What the program does at the edges of the system, where no clause says it: the file that it opens, the salts of a log, a file of
another disk, long paths and answers, and the threads that it starts."""

import os
import re
import struct
from pathlib import Path

from gate.calls import Word, command, rvstm
from gate.clients import ClientSession, asks, done
from gate.frames import ONE_ENTRY, session_over
from gate.runner import Case, Lacks, Run, Tool, holds, same
from gate.texts import written

NAMES = ("a?b", "a?mode=memory", "file:a", "a%20b", ":memory:", "-x", "ä")
"""Names of files that a library could read as something else."""
SALTS = slice(16, 24)
"""Where the header of a log has its two salts."""
LONG_ANSWER = 4 << 20
FRAME = asks("frame", ONE_ENTRY.encode())
WORK = """\
addi s0,a0,0
lw t0,32(a0)
lw t2,36(a0)
round: addi t0,t0,-1
bne t0,x0,round
read: beq t2,x0,done
addi a0,s0,0
addi a1,sp,-8
addi a2,x0,4
addi a7,x0,0
ecall
lw t1,0(s0)
addi t1,t1,1
sw t1,0(s0)
addi t2,t2,-1
j read
done: addi a1,x0,0
addi a7,x0,3
ecall
"""
"""Works so many rounds, and reads so many keys, as the two words after the key of its input say."""


def named_file(run: Run) -> None:
    """A session is kept in the file of the very name that was given, and no other file is made."""
    for number, name in enumerate(NAMES):
        folder = run.place / str(number)
        folder.mkdir()
        rvstm(run, "chain", f"--store={name}", folder=folder, data=FRAME).done()
        same(sorted(os.listdir(folder)), sorted([name, f"{name}-wal"]), name)
        holds((folder / name).read_bytes().startswith(b"SQLite format 3\0"), "another file", "a session's database")


def salts(run: Run) -> None:
    """No two logs of a file have the same salts, so a frame of an older log is never taken for one of the log."""
    path, seen = run.place / "file", set()
    for _ in range(6):
        with ClientSession(run.program, "--store", path) as session:
            session.ask(FRAME)
            seen.add(Path(f"{path}-wal").read_bytes()[SALTS])
            same(session.ended(b""), (b"", "", 0))
    same(len(seen), 6, "different salts")


def other_disk(run: Run) -> None:
    """If another disk is put over FILE's folder, files there are not taken for FILE and FILE-wal, though they have the same numbers."""
    place = run.place / "disk"
    place.mkdir()
    mounts = ["unshare", "--map-root-user", "--mount"]
    if command([*mounts, "mount", "-t", "tmpfs", "tmpfs", place]).status:
        raise Lacks("a mount of one's own")
    starts: list[Word] = [*mounts, "sh", "-c", 'mount -t tmpfs tmpfs "$0" && exec "$@"', place]
    with ClientSession(run.program, "--store", place / "file", before=starts) as session:
        session.ask(FRAME)
        enters: list[Word] = ["nsenter", f"--target={session.process.pid}", "--user", "--mount", "--preserve-credentials", "sh", "-c"]
        other = """
            file=$(stat -c %i "$0/file") log=$(stat -c %i "$0/file-wal")
            mount -t tmpfs tmpfs "$0" && cd "$0" || exit 1
            for number in $(seq 100); do
                : >try
                case $(stat -c %i try) in "$file") mv try file ;; "$log") mv try file-wal ;; *) mv try "other$number" ;; esac
            done
            test -e file && test -e file-wal"""
        command([*enters, other, place]).done()
        same(session.ended(asks("frame", b"")), (b"", "rvstm: store Unreadable 3\n", 1))


def long_path(run: Run) -> None:
    """A path of more than 255 bytes names a file like any other."""
    folder = run.place.joinpath(*["d" * 100] * 5)
    folder.mkdir(parents=True)
    written(folder / "block", "rvblock 1\n")
    same(rvstm(run, "seq", folder / "block").done(), "end\n")


def long_answer(run: Run) -> None:
    """An answer of more than 4 MiB is written like any other, and the session continues."""
    stored = b"".join(b"store %064x %s\n" % (key, b"5a" * 256) for key in range(LONG_ANSWER // 584 + 1))
    text = b"rvblock 2\ngas 2\n" + stored
    with ClientSession(run.program, "--brief") as session:
        session.ask(asks("frame", text))
        session.expect(asks("dump"), done(text))
        session.ask(asks("state"))


def threads(run: Run) -> None:
    """A frame of long calls starts threads, one of short calls none; so does the next frame after one whose threads had to give up,
    because its later calls read much and its first ones nothing."""
    log = run.place / "log"
    if command(["strace", "-o", log, "true"]).status:
        raise Lacks("strace that may trace here")
    written(run.place / "work.s", WORK)
    rvstm(run, "asm", "work.s", "--out", "work.elf", folder=run.place).done()

    def frame(calls: int, rounds: int, reads: int) -> str:
        """Eight calls that read nothing, and then these."""
        words = [(rounds, 0)] * 8 + [(rounds, reads)] * calls
        return "".join(f"call 0 1000000 {number:064x}{struct.pack('<II', *pair).hex()}\n" for number, pair in enumerate(words))

    frames = [frame(16, 12_000, 0), frame(16, 1, 0), frame(16, 12_000, 400), frame(16, 12_000, 0)]
    data = session_over((run.place / "work.elf").read_bytes(), frames)
    watched: list[Word] = ["strace", "-f", "-e", "trace=clone,clone3,write", "-o", log]
    came = command([*watched, run.program, "chain", "--workers", "2"], data=data).done()
    same(came, rvstm(run, "chain", data=data).done())
    started: list[int] = [0]
    for line in log.read_text(encoding="utf-8", errors="replace").splitlines():
        started[-1] += bool(re.search(r" clone3?\(", line))
        if re.search(r' write\(1, "ok ', line):
            started.append(0)
    same([count > 0 for count in started[1:-1]], [True, False, True, True], f"frames with threads, of {started}")


def cases() -> list[Case]:
    return [
        Case("edges: the file that is named", named_file),
        Case("edges: salts of logs", salts),
        Case("edges: a file of another disk", other_disk),
        Case("edges: a long path", long_path),
        Case("edges: a long answer", long_answer, needs_speed=True),
        Case("edges: threads of a session", threads, (Tool.STRACE,), needs_speed=True),
    ]
