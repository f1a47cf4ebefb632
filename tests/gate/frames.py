"""Sessions whose frames are made by a rule, and sessions one after another over one file."""

from pathlib import Path

from gate.calls import Word, command, rvstm
from gate.clients import ClientSession, asks, name_of
from gate.many import CALL, FORTY, KEY, value
from gate.runner import Case, Run, holds, same, shown
from gate.tables import has_pieces, table
from gate.texts import written

ZEROS = "0" * 64
ONE_ENTRY = f"rvblock 1\nstore {9:064x} 0a\n"
NO_HEADER = b"refused block 1 BadHeader 1\n"
KEPT = f"refused block 1 BadHeader 1\nok 74\nstore {9:064x} 0a\n".encode()
WORK = """\
addi s0,a0,0
lw t0,32(a0)
round: addi t0,t0,-1
bne t0,x0,round
sw x0,-8(sp)
addi a1,sp,-8
addi a2,x0,4
ecall
lw t1,-8(sp)
addi t1,t1,1
sw t1,-8(sp)
addi a0,s0,0
addi a1,sp,-8
addi a2,x0,4
addi a7,x0,1
ecall
addi a1,x0,0
addi a7,x0,3
ecall
"""
"""Works as many rounds as the word after the key of its input says, and then counts the key up."""
TEXTS = ("no", "hello\n", ONE_ENTRY, "SQLite format 2\0", "SQLite format 3\0", "SQ")
"""Texts that are no databases."""
OTHER_TABLES = (
    (b"CREATE TABLE storage (", b"CREATE TABLE storagf ("),
    (b"value BLOB NOT NULL", b"value TEXT NOT NULL"),
    (b"CREATE TABLE program (", b"CREATE TABLE programs("),
    (b"frame_gas INTEGER,", b"frame_gas NUMERIC,"),
    (b"CREATE TABLE answer (", b"CREATE TABLE answers("),
)
"""A piece of each table's text, and another one of the same length."""


def session_over(program: bytes, frames: list[str]) -> bytes:
    """The bytes of a session that is handed a program, and then frames of these lines over it."""
    texts = [f"rvblock 1\nprogram 0 {name_of(program).decode()}\n{lines}".encode() for lines in frames]
    return asks("program", program) + b"".join(asks("frame", text) for text in texts)


def counts_go_on(run: Run) -> None:
    """Three frames of forty counts of a key, a refused one after the first, and what they leave."""
    forty = CALL * FORTY
    data = session_over(table("programs").contents["COUNT"], [forty, "foo\n", forty, forty]) + asks("get", None, KEY) + asks("dump")
    text = rvstm(run, "chain", data=data).done()
    wrote = f"write 39 {KEY} "
    pieces = [
        "call 39 returned gas 639",
        f"{wrote}{value(40)}\nend\nrefused block 3 BadLine 2\nok ",
        f"{wrote}{value(80)}\nend\n",
        f"{wrote}{value(120)}\nend\n",
        f"ok 15\nvalue {value(120)}\nok 96\nrvblock 2\ngas 1\nstore {KEY} {value(120)}\n",
    ]
    holds(has_pieces(text, pieces) and text.endswith(pieces[-1]), text, "the counts 40, 80 and 120")


def too_many_calls(run: Run) -> None:
    text = rvstm(run, "chain", data=session_over(table("programs").contents["COUNT"], [CALL * 1025])).done()
    holds(text.endswith("\nrefused block 1027 Limit 7\n"), text, "refused block 1027 Limit 7")


# ---- over a file


def closed_and_killed(run: Run) -> None:
    """The next session goes on where the one before ended, whether that closed its file or was killed."""
    for path, is_killed in ((run.place / "closed", False), (run.place / "killed", True)):
        with ClientSession(run.program, "--store", path) as session:
            session.ask(asks("frame", ONE_ENTRY.encode()))
            session.expect(asks("frame", b""), NO_HEADER)
            if is_killed:
                session.kill()
            else:
                same(session.ended(b""), (b"", "", 0))
        with ClientSession(run.program, "--store", path) as session:
            same(session.ended(asks("last") + asks("list", None, ZEROS, "9")), (KEPT, "", 0))


def is_refused(run: Run, path: Path, content: bytes, what: str) -> None:
    """The case ends if a file of this content is not refused as no session, or is not left as it was."""
    path.write_bytes(content)
    Path(f"{path}-wal").unlink(missing_ok=True)
    rvstm(run, "chain", "--store", path, data=asks("frame", ONE_ENTRY.encode())).refused("rvstm: store NotASession 4")
    same(path.read_bytes() == content, True, f"{what}: the file is as it was")


def texts(run: Run) -> None:
    for text in TEXTS:
        for times in (1, 1000):
            is_refused(run, run.place / "file", text.encode() * times, f"{shown(text)} {times} times")


def other_tables(run: Run) -> None:
    """The file of a session with one piece of a table's text put in place of another is none."""
    path = run.place / "file"
    rvstm(run, "chain", "--store", path, data=asks("frame", ONE_ENTRY.encode())).done()
    sound = path.read_bytes()
    for piece, other in OTHER_TABLES:
        same((sound.count(piece) > 0, len(other)), (True, len(piece)), shown(repr(piece)))
        is_refused(run, path, sound.replace(piece, other, 1), shown(repr(other)))


def by_threads(run: Run) -> None:
    """Two frames of calls of 12,000 rounds by two workers over a file: they print what they print in order."""
    written(run.place / "work.s", WORK)
    rvstm(run, "asm", "work.s", "--out", "work.elf", folder=run.place).done()
    frame = "".join(f"call 0 100000 {call % 8:064x}e02e0000\n" for call in range(24))
    last = asks("state") + asks("dump")
    data = session_over((run.place / "work.elf").read_bytes(), [frame, frame]) + last
    path: list[Word] = ["--store", run.place / "file"]
    wanted = rvstm(run, "chain", "--digest", data=data).done()
    holds(wanted.endswith(f"store {7:064x} 06000000\n"), wanted[-80:], "each of 24 calls counts up one of eight keys")
    same(rvstm(run, "chain", "--workers", "2", *path, data=data).done(), wanted)
    came = rvstm(run, "chain", *path, data=last).done()
    holds(len(came) > 700 and wanted.endswith(came), came, "the state and the dump of the session before")


def not_text(run: Run) -> None:
    done = command([run.program, "seq", "\udcff.block"])
    came = (done.status, done.out, done.errors)
    holds(came[:2] == (2, "") and "error: a word of the command line is not UTF-8\n" in done.errors, came, "status 2")


def cases() -> list[Case]:
    """All of them, by the names of the tests that they were."""
    return [
        Case("session: counts_go_on_from_frame_to_frame", counts_go_on),
        Case("session: a_frame_of_too_many_calls", too_many_calls),
        Case("session over a file: a_closed_session_goes_on, a_killed_session_goes_on", closed_and_killed),
        Case("session over a file: texts_are_no_sessions", texts),
        Case("session over a file: other_tables_are_no_session", other_tables),
        Case("session over a file: frames_by_threads_are_kept", by_threads, cost=2, needs_speed=True),
        Case("rvstm wrong_lines_are_refused: a word that is not UTF-8", not_text),
    ]
