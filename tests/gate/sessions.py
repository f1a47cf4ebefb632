"""Sessions of `rvstm chain`, over pipes and over a file: each request and refusal of docs/formats.md, bodies from strangers, restarts,
kills, damaged files, and what is on the disk before an answer."""

import hashlib
import random
import re
import sqlite3
import struct
from collections.abc import Iterator
from pathlib import Path

from gate.calls import Word, command, tool_words
from gate.clients import NO_DIGEST, ClientSession, asks, done, frame_of, name_of, refused
from gate.outside import FOLDER, last_lines
from gate.runner import TOP, Case, Lacks, Run, Tool, holds, same, shown

COUNTER = TOP / "examples/counter"
KEY, ZEROS, LAST_KEY = f"{1:064x}", "0" * 64, "f" * 64
MOST_HEIGHT = 9_999_999_999
KILLS, DAMAGES = 12, 60
LONG_PROGRAMS, MOST_BYTES = 60, 131_072
"""How many programs with the most bytes a session takes before it starts again."""
OUTCOME = b"".join(
    b"call %d returned gas 639 pc 00010034 out -\nwrite %d %s 0%d000000\n" % (number, number, KEY.encode(), number + 1) for number in range(3)
) + b"end\n"
# The digest that docs/formats.md has for the frame of the counter.
DIGEST = b"ea7c6e243784c0cf368b58dfeb9d1cabb32b1a54bdc9e3bb69b83f644af4eb06"
DUMP = f"rvblock 2\ngas 1\nstore {KEY} 03000000\n".encode()
HOSTILE = (
    b"",
    b"q\n",
    b"dump\n",
    b"frame 0\n",
    b"frame 99999\nrvblock 1\n",
    b"rvblock 1\r\n",
    b"rvblock 1",
    b"\0" * 100,
    b"\n" * 100,
    b"ok 0\nok 0\n",
    b"rvblock 2\ngas 4\n",
    b"rvblock 2\ngas 1\nq\n",
    b"rvblock 1\nprogram 0 /etc/passwd\ncall 0 1 -\n",
    b"rvblock 1\nprogram 0 " + b"0" * 64 + b"\ncall 0 1 -\n",
    b"rvblock 1\nstore " + b"a" * 64 + b" 0\n",
    b"rvblock 1\nstore " + b"a" * 64 + b" " + b"00" * 257 + b"\n",
    b"rvblock 1\ncall 0 10000001 -\n",
    b"rvblock 1\ncall 0 18446744073709551617 -\n",
    b"\xff\xfe" * 50,
)
SETTINGS = ("--digest", "--brief")
FILE_OF_0_2_0 = TOP / "tests/fixtures/session-0.2.0"
"""What 0.2.0 left of a session with brief receipts: the program of the counter, and the frame of its block."""
SYNC = re.compile(rb"(?:fdatasync|fsync)\(\d+\) += 0")


def state(rules: int, height: int, keys: int, programs: int, digest: bytes | None = NO_DIGEST, brief: int = 1) -> bytes:
    """The answer to `state` of a session with no other settings."""
    text = f"rules {rules}\nheight {height}\nkeys {keys}\nprograms {programs}\nframe-limit 67108864\nframe-gas none\nbrief {brief}\n"
    return done(text.encode() + (b"" if digest is None else b"digest " + digest + b"\n"))


def next_digest(digest: bytes, answer: bytes) -> bytes:
    return hashlib.sha256(bytes.fromhex(digest.decode()) + answer).hexdigest().encode()


def counter() -> tuple[bytes, bytes]:
    """The program of the counter, and the frame of its block."""
    programs, frame = frame_of(COUNTER / "counter.block")
    return programs[0], frame


# ---- each request, with its answer


def requests() -> Iterator[tuple[bytes, bytes]]:
    """Each request and each refusal of a session with a digest and brief receipts, with the answer."""
    program, frame = counter()
    name = name_of(program)
    yield asks("state"), state(1, 0, 0, 0)
    yield asks("programs"), done()
    yield asks("last"), refused("frame NoFrame 7")
    yield asks("dump"), done(b"rvblock 2\ngas 1\n")
    yield asks("frame", frame), refused("frame NoProgram 3")
    digest = next_digest(NO_DIGEST, refused("frame NoProgram 3"))
    yield asks("state"), state(1, 1, 0, 0, digest)
    yield asks("begin", b"rvblock 1\n", "0", ZEROS), done()
    for _ in range(2):
        yield asks("program", program), done(name + b"\n")
    yield asks("programs"), done(name + b"\n")
    yield asks("try", frame), done(OUTCOME)
    yield asks("get", None, KEY), done(b"absent\n")
    yield asks("frame", frame), done(OUTCOME)
    yield asks("last"), done(OUTCOME)
    yield asks("get", None, KEY), done(b"value 03000000\n")
    yield asks("list", None, ZEROS, "1"), done(f"store {KEY} 03000000\n".encode())
    yield asks("list", None, LAST_KEY, "1024"), done()
    yield asks("dump"), done(DUMP)
    yield asks("state"), state(1, 1, 1, 1, DIGEST)
    for body, line in ((b"", "block 1 BadHeader 1"), (b"rvblock 1\nwhat\n", "block 2 BadLine 2")):
        yield asks("try", body), refused(line)
        yield asks("frame", body), refused(line)
        digest = next_digest(digest if body else DIGEST, refused(line))
    yield asks("state"), state(1, 3, 1, 1, digest)
    yield asks("last"), refused("block 2 BadLine 2")
    yield asks("program", b"\x7fELF"), refused("elf Truncated 1")
    yield asks("program", bytes(131_073)), refused("file TooLong 3")
    yield asks("forget", None, LAST_KEY), refused("frame NoProgram 3")
    yield asks("forget", None, name.decode()), done()
    yield asks("programs"), done()
    yield asks("frame", b"rvblock 2\ngas 3\n"), done(b"end\n")
    yield asks("frame", b"rvblock 1\n"), refused("frame OlderRules 2")
    digest = next_digest(next_digest(digest, done(b"end\n")), refused("frame OlderRules 2"))
    yield asks("state"), state(3, 5, 1, 0, digest)
    yield asks("begin", DUMP, "7", "-"), refused("frame OtherDigest 8")
    yield asks("begin", frame, "7", ZEROS), refused("frame NotADump 6")
    yield asks("begin", b"what", "7", ZEROS), refused("block 1 BadHeader 1")
    yield asks("begin", DUMP, str(MOST_HEIGHT), LAST_KEY), done()
    yield asks("last"), refused("frame NoFrame 7")
    yield asks("frame", b"rvblock 1\n"), refused("frame TooHigh 9")
    yield asks("state"), state(1, MOST_HEIGHT, 1, 0, LAST_KEY.encode())
    yield asks("begin", DUMP, "0", ZEROS), done()
    yield asks("program", program), done(name + b"\n")


def over_pipes(run: Run) -> None:
    with ClientSession(run.program, *SETTINGS) as session:
        for request, answer in requests():
            session.expect(request, answer)
        same(session.ended(), (b"", "", 0))


def ahead(run: Run) -> None:
    """All requests written ahead, and none read before the answers."""
    text, answers = (b"".join(parts) for parts in zip(*requests()))
    with ClientSession(run.program, *SETTINGS) as session:
        same(session.ended(text), (answers, "", 0))


def settings(run: Run) -> None:
    """The bounds of frames, receipts with registers, and a session without a digest."""
    program, frame = counter()
    with ClientSession(run.program, "--frame-limit", str(len(frame)), "--frame-gas", "2999") as session:
        session.expect(asks("program", program), done(name_of(program) + b"\n"))
        session.expect(asks("frame", frame + b"\n"), refused("frame TooLong 4"))
        session.expect(asks("frame", frame), refused("frame TooMuchGas 5"))
        text = session.ask(asks("state"))
        holds(b"frame-limit %d\nframe-gas 2999\nbrief 0\n" % len(frame) in text, text, "the settings")
        session.expect(asks("begin", DUMP, "0", ZEROS), refused("frame OtherDigest 8"))
        session.expect(asks("begin", DUMP, "0", "-"), done())
    with ClientSession(run.program) as session:
        session.ask(asks("program", program))
        answer = session.ask(asks("frame", frame))
        holds(answer.count(b"\nregs ") == 3, answer, "three lines of registers")
        session.expect(asks("state"), state(1, 1, 1, 1, None, 0))


def ends(run: Run) -> None:
    fault, cut = refused("request BadLine 1"), refused("request Cut 2")
    for data, wanted in (
        (b"", (b"", "", 0)),
        (b"q\nwhat", (b"", "", 0)),
        (b"\n", (fault, "rvstm: request BadLine 1\n", 1)),
        (b"state", (fault, "rvstm: request BadLine 1\n", 1)),
        (b"state\r\n", (fault, "rvstm: request BadLine 1\n", 1)),
        (b" state\n", (fault, "rvstm: request BadLine 1\n", 1)),
        (b"frame 01\n.", (fault, "rvstm: request BadLine 1\n", 1)),
        (b"get " + b"A" * 64 + b"\n", (fault, "rvstm: request BadLine 1\n", 1)),
        (b"list " + b"0" * 64 + b" 1025\n", (fault, "rvstm: request BadLine 1\n", 1)),
        (b"s" * 128, (fault, "rvstm: request BadLine 1\n", 1)),
        (b"frame 10\nrvblock 1", (cut, "rvstm: request Cut 2\n", 1)),
        (b"program 9999999999\n", (cut, "rvstm: request Cut 2\n", 1)),
    ):
        with ClientSession(run.program) as session:
            came = session.ended(data)
            holds(came == wanted, f"{shown(data)}: {came}", shown(repr(wanted)))


def strangers(run: Run) -> None:
    """Bodies from strangers: each is refused as a block, and nothing in them is taken for a request."""
    choice = random.Random(run.setting.seed)
    run.note(f"seed {run.setting.seed}")
    bodies = [*HOSTILE, *(choice.randbytes(choice.randrange(1, 300)) for _ in range(60))]
    with ClientSession(run.program, *SETTINGS) as session:
        digest = NO_DIGEST
        for height, body in enumerate(bodies, 1):
            answer = session.ask(asks("frame", body))
            holds(answer.startswith((b"refused block ", b"refused frame NoProgram 3\n")), answer, f"a refusal of {shown(body)}")
            same(answer.count(b"\n"), 1)
            digest = next_digest(digest, answer)
            session.expect(asks("try", body), answer)
            session.expect(asks("state"), state(1, height, 0, 0, digest))
        same(session.ended(), (b"", "", 0))


# ---- over a file


def over_a_file(run: Run) -> None:
    """Each request in a process of its own, over a file: the answers equal those of one session."""
    path = run.place / "file"
    for number, (request, answer) in enumerate(requests()):
        with ClientSession(run.program, "--brief", "--store", path) as session:
            session.expect(request, answer)
            if number % 3 == 2:
                session.kill()
            else:
                same(session.ended(), (b"", "", 0))


def tables(run: Run) -> None:
    """Stock SQLite reads what a session left, in the tables of docs/formats.md."""
    path, (program, frame) = run.place / "file", counter()
    with ClientSession(run.program, "--brief", "--store", path) as session:
        session.ask(asks("program", program))
        session.ask(asks("frame", frame))
        same(session.ended()[2], 0)
    asked = (
        "SELECT hex(key), hex(value) FROM storage; SELECT hex(name), hex(file) FROM program; PRAGMA integrity_check; "
        "SELECT version, frame_limit, frame_gas, brief, rules, height, hex(digest) FROM session; "
        "SELECT id, hex(line), hex(bytes) FROM answer; SELECT sql FROM sqlite_schema WHERE sql IS NOT NULL ORDER BY sql;"
    )
    line, _, body = done(OUTCOME).partition(b"\n")
    page = (TOP / "docs/formats.md").read_text(encoding="utf-8")
    schema = sorted(re.findall(r"^    (CREATE TABLE .*)$", page, re.M))
    rows = [
        f"{KEY}|03000000",
        f"{name_of(program).decode().upper()}|{program.hex().upper()}",
        "ok",
        f"1|67108864||1|1|1|{DIGEST.decode().upper()}",
        f"1|{line.hex().upper()}0A|{body.hex().upper()}",
    ]
    same(command(["sqlite3", "-batch", path], data=asked).done().splitlines(), [*rows, *schema])


def refused_files(run: Run) -> None:
    """What is no file of a session, or was changed between two: each is refused by its name, and left as it was."""
    path, (program, frame) = run.place / "file", counter()
    with ClientSession(run.program, "--brief", "--store", path) as session:
        session.ask(asks("program", program))
        session.ask(asks("frame", frame))
        with ClientSession(run.program, "--brief", "--store", path) as other:
            same(other.ended(b"")[1:], ("rvstm: store Busy 1\n", 1), "a second session")
        same(session.ended()[2], 0)
    sound = path.read_bytes()
    for name, statement in (
        ("OtherVersion 5", "UPDATE session SET version = 2"),
        ("OtherSettings 6", "UPDATE session SET brief = 0"),
        ("OtherSettings 6", "UPDATE session SET brief = 0; UPDATE program SET file = x'00'"),
        ("Damaged 7", "UPDATE session SET rules = 4"),
        ("Damaged 7", "DELETE FROM session"),
        ("Damaged 7", "UPDATE storage SET value = zeroblob(257)"),
        ("Damaged 7", "UPDATE program SET file = x'00'"),
        ("NotASession 4", "CREATE TABLE other (number)"),
        ("NotASession 4", "DROP TABLE answer"),
    ):
        put(path, sound)
        base = sqlite3.connect(path)
        base.executescript(statement)
        base.close()
        refuses(run, path, name, statement)
    for name, data in (("NotASession 4", b"a text, which is no database\n"), ("NotASession 4", b"SQLite format 3\0" + b"x" * 9_999)):
        put(path, data)
        refuses(run, path, name, shown(data))
    put(path, sound)
    (run.place / "file-journal").mkdir()
    refuses(run, path, "HotJournal 2", "a folder in the place of the journal")
    (run.place / "file-journal").rmdir()
    refuses(run, run.place, "Unreadable 3", "a folder")
    refuses(run, run.place / "missing/file", "Unreadable 3", "no folder")
    with ClientSession(run.program, "--brief", "--store", path) as session:
        session.expect(asks("state"), state(1, 1, 1, 1, DIGEST))


def older_file(run: Run) -> None:
    """A session continues from the file that an older version wrote."""
    path, (program, frame) = run.place / "file", counter()
    put(path, FILE_OF_0_2_0.read_bytes())
    with ClientSession(run.program, "--brief", "--store", path) as session:
        session.expect(asks("state"), state(1, 1, 1, 1, DIGEST))
        session.expect(asks("last"), done(OUTCOME))
        session.expect(asks("programs"), done(name_of(program) + b"\n"))
        session.expect(asks("dump"), done(DUMP))
        session.ask(asks("frame", frame))
        session.expect(asks("get", None, KEY), done(b"value 06000000\n"))
        same(session.ended(), (b"", "", 0))


def put(path: Path, data: bytes) -> None:
    path.write_bytes(data)
    Path(f"{path}-wal").unlink(missing_ok=True)


def refuses(run: Run, path: Path, name: str, what: str) -> None:
    """The case ends if a session over a file is not refused by this name, or changes the file."""
    before = path.read_bytes() if path.is_file() else None
    with ClientSession(run.program, "--brief", "--store", path) as session:
        same(session.ended(b""), (b"", f"rvstm: store {name}\n", 1), what)
    same(path.read_bytes() == before if before is not None else True, True, f"{what}: the file is as it was")


def damaged(run: Run) -> None:
    """Random damage to a file: it is refused by one line and left as it was, or read, and never a crash."""
    choice, path = random.Random(run.setting.seed), run.place / "file"
    run.note(f"seed {run.setting.seed}")
    program, frame = counter()
    with ClientSession(run.program, "--brief", "--store", path) as session:
        session.ask(asks("program", program))
        session.ask(asks("frame", frame))
        session.ended()
    sound, came = path.read_bytes(), {"refused": 0, "read": 0}
    for _ in range(DAMAGES):
        data = bytearray(sound)
        place = choice.randrange(len(data) if choice.randrange(2) else 200)
        data[place : place + choice.choice((1, 1, 16, 512))] = choice.randbytes(choice.choice((1, 1, 16, 512)))
        put(path, bytes(data))
        with ClientSession(run.program, "--brief", "--store", path) as session:
            out, errors, status = session.ended(b"state\nq\n")
        if status == 0:
            came["read"] += 1
            holds(out.startswith(b"ok ") and not errors, f"{out[:80]!r} {errors}", "an answer")
            continue
        came["refused"] += 1
        is_named = re.fullmatch(r"rvstm: store [A-Za-z]+ [1-9]\n", errors)
        holds(status == 1 and not out and bool(is_named), f"status {status}, {errors}", "status 1 and rvstm: store NAME NUMBER")
        holds(path.read_bytes() == bytes(data), "a changed file", "the file as it was")
    run.note(", ".join(f"{number} {what}" for what, number in came.items()))


def long_program(number: int) -> bytes:
    """A program of one page, in a file of the most bytes: an ebreak, a number, and zeros that no segment has."""
    header = b"\x7fELF\x01\x01\x01".ljust(16, b"\0") + struct.pack("<HHIIIIIHHHHHH", 2, 243, 1, 0x10000, 52, 0, 0, 52, 32, 1, 0, 0, 0)
    segment = struct.pack("<IIIIIIII", 1, len(header) + 32, 0x10000, 0x10000, 8, 8, 5, 0)
    return (header + segment + struct.pack("<II", 0x0010_0073, number)).ljust(MOST_BYTES, b"\0")


def most_memory(session: ClientSession) -> int:
    """The most bytes of addresses that a session had."""
    found = re.search(r"^VmPeak:\s+(\d+) kB$", Path(f"/proc/{session.process.pid}/status").read_text(encoding="utf-8"), re.M)
    assert found
    return 1024 * int(found[1])


def restarted(run: Run) -> None:
    """A session of long files starts again in the memory that it ran in: an open loads one program after another."""
    path, peaks = run.place / "file", list[int]()
    with ClientSession(run.program, "--brief", "--store", path) as session:
        for number in range(LONG_PROGRAMS):
            program = long_program(number)
            session.expect(asks("program", program), done(name_of(program) + b"\n"))
        peaks.append(most_memory(session))
        same(session.ended(), (b"", "", 0))
    with ClientSession(run.program, "--brief", "--store", path) as session:
        session.expect(asks("state"), state(1, 0, 0, LONG_PROGRAMS))
        peaks.append(most_memory(session))
    run.note(f"{peaks[0]} bytes, and {peaks[1]} after a start")
    holds(peaks[1] <= 1.05 * peaks[0] + 2 * MOST_BYTES, f"{peaks[1]} bytes", f"at most 1.05 times {peaks[0]}, and two files")


def killed(run: Run) -> None:
    """Sessions that are killed at random moments; the next one has all that was answered."""
    run.note(f"seed {run.setting.seed}")
    done = command([*tool_words("kills"), run.program, FOLDER, "--rounds", str(KILLS), "--seed", str(run.setting.seed)])
    holds(done.status == 0, last_lines(done.out + done.errors), "no bad round")
    run.note(last_lines(done.out, 1))


def faults(run: Run) -> None:
    """Foreign, locked and changed files, other settings and full disks: each is refused by its name, or read."""
    done = command([*tool_words("store-faults"), run.program, "--seed", str(run.setting.seed)])
    wrong = [line for line in done.out.splitlines() if "; BAD, " in line]
    holds(done.status == 0, " | ".join(wrong[:3]) or last_lines(done.errors), "no bad trial")
    run.note(last_lines(done.out, 1))


def synced(run: Run) -> None:
    """Before each answer to a request that changes something, two syncs, which strace sees."""
    path, log, (program, frame) = run.place / "file", run.place / "log", counter()
    if command(["strace", "-o", log, "true"]).status:
        raise Lacks("strace that may trace here")
    changes = [asks("program", program), asks("frame", frame), asks("frame", b""), asks("begin", DUMP, "0", ZEROS), asks("frame", frame)]
    changes.append(asks("forget", None, name_of(program).decode()))
    watched: list[Word] = ["strace", "-f", "-s", "64", "-e", "trace=fdatasync,fsync,write", "-o", log]
    with ClientSession(run.program, "--brief", "--store", path, before=watched) as session:
        for request in [asks("state"), *changes]:
            session.ask(request)
        session.ended()
    counts, syncs = [], 0
    for line in log.read_bytes().splitlines():
        syncs += bool(SYNC.search(line))
        if re.search(rb' write\(1, "(?:ok|refused) ', line):
            counts.append(syncs)
            syncs = 0
    same(len(counts), 1 + len(changes), "answers")
    holds(all(count >= 2 for count in counts[1:]), counts, "two syncs before each answer")


# ---- nodes


def nodes(run: Run) -> None:
    """Three nodes over the same frames: in order, by four workers, and by two over a file with restarts. They have one digest at
    each height, and hashlib computes the same."""
    frames = [frame_of(path) for path in sorted((TOP / "examples").glob("*/*.block")) if path.stem == path.parent.name]
    frames += [frame_of(path / "block") for rules in ("rules2", "rules3") for path in sorted((FOLDER / rules).iterdir())[::2]]
    digest, path = NO_DIGEST, run.place / "file"
    on_file: list[Word] = ["--brief", "--workers", "2", "--store", path]
    first, second = ClientSession(run.program, *SETTINGS), ClientSession(run.program, *SETTINGS, "--workers", "4")
    third = ClientSession(run.program, *on_file)
    for height, (programs, frame) in enumerate(frames, 1):
        for program in programs:
            for session in (first, second, third):
                session.expect(asks("program", program), done(name_of(program) + b"\n"))
        answer = first.ask(asks("frame", frame))
        digest = next_digest(digest, answer)
        second.expect(asks("frame", frame), answer)
        third.expect(asks("frame", frame), answer)
        if height % 7 == 0:
            third.kill()
            third = ClientSession(run.program, *on_file)
        for session in (first, second, third):
            came = session.ask(asks("state")).splitlines()[-1]
            same(came, b"digest " + digest, f"height {height}")
    dumps = {hashlib.sha256(session.ask(asks("dump"))).hexdigest() for session in (first, second, third)}
    same(len(dumps), 1, "dumps")
    run.note(f"{len(frames)} frames, digest {digest[:16].decode()}..")
    for session in (first, second, third):
        same(session.ended()[2], 0)


# ---- the cluster


def cluster_tests(run: Run, module: str) -> None:
    done = command(["python3", "-m", "unittest", module], TOP / "examples/cluster", more=over(run))
    holds(done.status == 0, last_lines(done.errors), "OK")
    skipped = re.search(r"^skipped, for want of (.*)$", done.errors, re.M)
    if skipped:
        raise Lacks(f"{skipped[1]} (the others passed)")


def cluster_faults(run: Run) -> None:
    """20 heights with each fault once: no block is lost or doubled, and all nodes have one digest."""
    done = command([TOP / "examples/cluster/faults.py", run.place / "ledger", "--heights", "20", "--faults", "9"], more=over(run))
    last = last_lines(done.out, 1)
    holds(done.status == 0 and last.endswith(" heights, 9 faults, 0 wrong"), last_lines(done.errors) or last, "0 wrong")
    run.note(last)


def over(run: Run) -> dict[str, str]:
    """What names the program."""
    return {"RVSTM": str(run.program), "PYTHONDONTWRITEBYTECODE": "1"}


def cases() -> list[Case]:
    return [
        Case("session over pipes: each request", over_pipes),
        Case("session over pipes: written ahead", ahead),
        Case("session over pipes: settings", settings),
        Case("session over pipes: what ends it", ends),
        Case("session over pipes: bodies from strangers", strangers),
        Case("session over a file: each request, with restarts", over_a_file, cost=2),
        Case("session over a file: tables", tables, (Tool.SQLITE,)),
        Case("session over a file: refused files", refused_files, cost=2),
        Case("session over a file: the file of an older version", older_file),
        Case("session over a file: damage", damaged, cost=2),
        Case("session over a file: a start takes no more memory", restarted, needs_speed=True, cost=2),
        Case("session over a file: a dozen kills", killed, cost=6),
        Case("session over a file: faults of files and disks", faults, cost=18),
        Case("session over a file: two syncs before an answer", synced, (Tool.STRACE,)),
        Case("three nodes have one digest", nodes, cost=5),
        Case("cluster: tests of its parts", lambda run: cluster_tests(run, "test_parts"), cost=4),
        Case("cluster: tests over etcd", lambda run: cluster_tests(run, "test_cluster"), (Tool.ETCD,), seconds=240, cost=35),
        Case("cluster: 20 heights with faults", cluster_faults, (Tool.ETCD,), seconds=240, cost=35),
    ]
