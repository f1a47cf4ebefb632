"""Input, output and standard error that fail at any byte: what is refused, and what was printed before."""

from collections.abc import Iterable

from gate.calls import EndedCommand, command
from gate.runner import Case, Run, Tool, same
from gate.shims import loaded
from gate.texts import written

UNREADABLE = "rvstm: file Unreadable 1\n"
SOURCE = "  addi a7,x0,3  # RETURN\necall\n"
"""Of a program that returns its input."""
LISTING = "00010000 00300893 addi x17,x0,3\n00010004 00000073 ecall\n"
ELF = bytes.fromhex(
    "7f454c46010101000000000000000000" "0200f300010000000000010034000000" "00000000000000003400200001000000"
    "00000000010000005400000000000100" "00000100080000000800000005000000" "040000009308300073000000"
)
BLOCK = "rvblock 1\nprogram 0 echo.elf\ncall 0 100 0102\n"
RESULT = (
    "call 0 returned gas 13 pc 00010004 out 0102\n"
    "regs 00000000 00000000 00110000 00000000 00000000 00000000 00000000 00000000 00000000 00000000 00100000 00000002 00000000 00000000"
    " 00000000 00000000 00000000 00000003" + " 00000000" * 14 + "\nend\n"
)
STORED = f"store {'0' * 62}ff 0102\n"
FILES = {
    "echo.s": SOURCE, "echo.block": BLOCK, "stored.block": "rvblock 1\n" + STORED, "wrong.block": "rvblock 9\n", "one.schedule": "0\n" * 5,
}
SEQ, DIS, DEBUG = ("seq", "echo.block"), ("dis", "echo.elf"), ("debug", "echo.block", "--call", "0")
DRIVE = ("drive", "echo.block", "--workers", "1", "--schedule", "one.schedule")
TYPED = "w\ns\nq\n"
STEPS = ("0 00010000 addi x17,x0,3\n", "1 00010004 ecall\n")
"""What the lines `w` and `s` print."""
WRITES = {"fail": "rvstm: output Io 1\n", "none": "rvstm: output WroteNothing 2\n"}
"""What a write does, and how that is refused."""


def begun(run: Run) -> None:
    for name, text in FILES.items():
        written(run.place / name, text)
    (run.place / "echo.elf").write_bytes(ELF)


def with_failing(run: Run, words: Iterable[str], **failing: str) -> EndedCommand:
    return command([run.program, *words], run.place, TYPED, {**loaded(run, "failing_streams.c"), **failing})


def ends(done: EndedCommand, status: int, out: str, errors: str, what: str) -> None:
    same((done.status, done.out, done.errors), (status, out, errors), what)


def reads(run: Run) -> None:
    """A read of each file fails at each of its bytes and at its end: it is unreadable, and nothing is printed."""
    begun(run)
    for words, file in (
        (SEQ, "echo.block"), (SEQ, "echo.elf"), (DRIVE, "one.schedule"), (("asm", "echo.s", "--out", "out"), "echo.s"), (DIS, "echo.elf"),
    ):
        for number in range((run.place / file).stat().st_size + 1):
            done = with_failing(run, words, FAILING_READ=f"{file} {number}")
            ends(done, 1, "", UNREADABLE, f"{words[0]}, read {number} of {file}")
    same((run.place / "out").exists(), False)


def lines(run: Run) -> None:
    """A read of the debugger's lines fails: what the whole lines before it print is printed."""
    begun(run)
    for number in range(len(TYPED)):
        done = with_failing(run, DEBUG, FAILING_READ=f"stdin {number}")
        ends(done, 1, "".join(STEPS[: number // 2]), UNREADABLE, f"read {number}")


def outputs(run: Run) -> None:
    """A write of what a command prints fails, or takes nothing: a beginning was printed."""
    begun(run)
    some, version = (0, 1, 3, 30), (0, 1, 3)
    for words, text, places in (
        (SEQ, RESULT, some), (("run", "echo.block", "--workers", "2"), RESULT, some), (DRIVE, RESULT, some), (DEBUG, "".join(STEPS), some),
        (DIS, LISTING, range(len(LISTING))), (("seq", "stored.block"), STORED + "end\n", range(len(STORED) + 4)),
        (("--version",), "rvstm 0", version), (("--help",), "Exec", version),
    ):
        for place in places:
            for then, line in WRITES.items():
                done = with_failing(run, words, FAILING_WRITE=f"1 {place} {then}")
                ends(done, 1, text[:place], line, f"{' '.join(words)}, write {place}")
        if text.endswith("\n"):
            # It is the whole text, so no write comes after these.
            ends(with_failing(run, words, FAILING_WRITE=f"1 {len(text)} fail"), 0, text, "", " ".join(words))


def reports(run: Run) -> None:
    """A write of the line of a refusal fails, or takes nothing: the status stays, and a beginning was written."""
    begun(run)
    line = "rvstm: block 1 BadHeader 1\n"
    for place in range(len(line) + 1):
        for then in WRITES:
            done = with_failing(run, ("seq", "wrong.block"), FAILING_WRITE=f"2 {place} {then}")
            ends(done, 1, "", line[:place], f"write {place}")
    done = with_failing(run, ("run", "echo.block", "--workers", "1", "--counts"), FAILING_WRITE="2 0 fail")
    ends(done, 1, RESULT, "", "counts")


def cases() -> list[Case]:
    found = {"reads": reads, "lines of the debugger": lines, "outputs": outputs, "reports": reports}
    return [Case(f"failing: {name}", run, (Tool.CC,), cost=3) for name, run in found.items()]
