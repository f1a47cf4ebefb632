"""The order in which commands open files, and what is read to its end: a file that is refused is the last."""

from gate.calls import command
from gate.runner import Case, Run, Tool, same
from gate.shims import loaded
from gate.texts import written

ECHO = "  addi a7,x0,3\necall\n"
"""The source of a program that returns its input."""
FILES = {
    "echo.s": ECHO, "no.s": "foo\n", "wrong.block": "rvblock 9\n", "one.schedule": "0\n" * 5,
    "echo.block": "rvblock 1\nprogram 0 echo.elf\ncall 0 100 0102\n",
    "two.block": "rvblock 1\nprogram 0 echo.elf\nprogram 1 other.elf\ncall 1 100 0102\n",
    "lost.block": "rvblock 1\nprogram 0 echo.elf\nprogram 1 lost.elf\n",
}
TWO = ("two.block", "echo.elf", "other.elf")
DRIVE = ("--workers", "1", "--schedule")
READ: dict[tuple[str, ...], tuple[str, ...]] = {
    ("seq", "two.block"): TWO,
    ("run", "two.block", "--workers", "2"): TWO,
    ("debug", "two.block", "--call", "0"): TWO,
    ("drive", "two.block", *DRIVE, "one.schedule"): (*TWO, "one.schedule"),
    ("drive", "wrong.block", *DRIVE, "one.schedule"): ("wrong.block",),
    ("dis", "echo.elf"): ("echo.elf",),
    ("asm", "echo.s", "--out", "new.elf"): ("echo.s",),
    ("asm", "no.s", "--out", "new.elf"): ("no.s",),
    ("migrate", "echo.block", "--out", "new.block"): ("echo.block",),
}
"""Commands, and the files that are opened and read to their ends, each before the next."""
LAST: dict[tuple[str, ...], tuple[tuple[str, ...], str]] = {
    ("drive", "no.block", *DRIVE, "one.schedule"): ((), "no.block"),
    ("drive", "lost.block", *DRIVE, "one.schedule"): (("lost.block", "echo.elf"), "lost.elf"),
    ("drive", "echo.block", *DRIVE, "no.schedule"): (("echo.block", "echo.elf"), "no.schedule"),
    ("asm", "no.s", "--out", "./no.s"): ((), "no.s"),
    ("asm", "no-source.s", "--out", "new.elf"): ((), "no-source.s"),
    ("migrate", "wrong.block", "--out", "wrong.block"): ((), "wrong.block"),
}
"""Commands, the same files, and the one that is opened after them and not read to its end."""


def opened(run: Run) -> None:
    """Each command opens what it is given in the order of the rules."""
    for name, text in FILES.items():
        written(run.place / name, text)
    for name in ("echo.elf", "other.elf"):
        same(command([run.program, "asm", "echo.s", "--out", name], run.place).done(), "")
    log = run.place / "opened"
    for line, (files, last) in {**{line: (files, "") for line, files in READ.items()}, **LAST}.items():
        log.unlink(missing_ok=True)
        command([run.program, *line], run.place, more={**loaded(run, "opened_files.c"), "OPENED": str(log)})
        wanted = "".join(f"open {file}\nend {file}\n" for file in files) + (f"open {last}\n" if last else "")
        same(log.read_text(encoding="utf-8"), wanted, " ".join(line))


def cases() -> list[Case]:
    return [Case("opened: files in their order", opened, (Tool.CC,))]
