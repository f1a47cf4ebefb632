"""Files that `migrate` and `asm` make and replace: what is at a path and beside it, and what a refusal leaves."""

import errno
import fcntl
import os
import stat
from collections.abc import Callable
from pathlib import Path

from gate.calls import EndedCommand, Word, command, rvstm
from gate.runner import Case, Run, Tool, holds, same
from gate.shims import loaded
from gate.texts import written

GIVEN, OLD, NEW = "rvblock 1\n", "a good file, and longer than the new one", "rvblock 2\ngas 1\n"
"""The block, what was at a path before, and what is put there."""
SOURCE = "ecall\n"
UNWRITABLE = "rvstm: file Unwritable 2"
NEW_NAMES = [f".rvstm.new{number}" for number in range(100)]
"""The names of a new file while it is written, of which the first free one is taken."""


def migrated(run: Run, path: str | Path) -> EndedCommand:
    written(run.place / "block", GIVEN)
    return rvstm(run, "migrate", "block", "--out", path, folder=run.place)


def puts(run: Run, path: str, *names: str) -> None:
    """The new bytes are put at a path, and its folder then has these names."""
    same(migrated(run, path).done(), "")
    same((run.place / path).read_text(encoding="utf-8"), NEW, path)
    same(names_in((run.place / path).parent), sorted(names), path)


def refuses(run: Run, path: str | Path) -> None:
    migrated(run, path).refused(UNWRITABLE)


def names_in(folder: Path) -> list[str]:
    return sorted(os.listdir(folder))


def old(run: Run, path: str) -> Path:
    return written(run.place / path, OLD)


def has_old(path: Path) -> None:
    same(path.read_text(encoding="utf-8"), OLD, path.name)


def folder(run: Run, name: str) -> Path:
    """A new folder."""
    made = run.place / name
    made.mkdir()
    return made


def made_and_replaced(run: Run) -> None:
    """A file is made, and replaced; the new one has the mode of any new file. Its path may be a new file's name."""
    made = folder(run, "made")
    puts(run, "made/out", "out")
    old(run, "made/out").chmod(0o4700)
    puts(run, "made/out", "out")
    plain = old(run, "made/plain")
    same((made / "out").stat().st_mode, plain.stat().st_mode, "mode")
    for _ in range(2):
        puts(run, "made/" + NEW_NAMES[0], NEW_NAMES[0], "out", "plain")


def left_over(run: Run) -> None:
    """A file that an earlier run left is removed; one at the next name is not looked at."""
    folder(run, "left")
    old(run, "left/" + NEW_NAMES[0])
    kept = old(run, "left/" + NEW_NAMES[1])
    puts(run, "left/out", "out", NEW_NAMES[1])
    has_old(kept)


def other_names(run: Run) -> None:
    """A file that somebody has locked, a folder and a link stay, though they have the names of new files."""
    kept = folder(run, "kept")
    locked = old(run, "kept/" + NEW_NAMES[0])
    (kept / NEW_NAMES[1]).mkdir()
    old(run, "kept/other")
    (kept / NEW_NAMES[2]).symlink_to("other")
    with locked.open() as held:
        fcntl.flock(held, fcntl.LOCK_EX)
        puts(run, "kept/out", *NEW_NAMES[:3], "other", "out")
    has_old(locked)
    has_old(kept / NEW_NAMES[2])


def all_names(run: Run) -> None:
    """If all names of new files are taken, what is at the path stays. If earlier runs left them, it is replaced."""
    full = folder(run, "full")
    out = old(run, "full/out")
    for name in NEW_NAMES:
        (full / name).mkdir()
    refuses(run, "full/out")
    has_old(out)
    for name in NEW_NAMES:
        (full / name).rmdir()
        old(run, f"full/{name}")
    puts(run, "full/out", *NEW_NAMES[1:], "out")


def links(run: Run) -> None:
    """A link to a file is followed, and so is one to nothing; one to itself leads nowhere."""
    deep = folder(run, "deep")
    old(run, "deep/real")
    for name, to in (("link", "deep/real"), ("loose", "deep/none"), ("self", "self")):
        (run.place / name).symlink_to(to)
    migrated(run, "link").done()
    same(((deep / "real").read_text(encoding="utf-8"), names_in(deep)), (NEW, ["real"]))
    migrated(run, "loose").done()
    same(((deep / "none").read_text(encoding="utf-8"), names_in(deep)), (NEW, ["none", "real"]))
    holds((run.place / "link").is_symlink() and (run.place / "loose").is_symlink(), "a file", "links")
    refuses(run, "self")
    same(names_in(run.place), ["block", "deep", "link", "loose", "self"])


def devices_and_pipes(run: Run) -> None:
    """A device and a pipe are written as they are."""
    migrated(run, "/dev/null").done()
    holds(stat.S_ISCHR(os.stat("/dev/null").st_mode), "no device", "a device")
    refuses(run, "/dev/full")
    # The program's standard output is a pipe.
    same(migrated(run, "/proc/self/fd/1").done(), NEW)


def unwritable(run: Run) -> None:
    """What can't be written stays, and nothing is left beside it."""
    kept = folder(run, "kept")
    out = old(run, "kept/out")
    out.chmod(0o444)
    # Root may write it.
    if os.access(out, os.W_OK):
        puts(run, "kept/out", "out")
    else:
        refuses(run, "kept/out")
        has_old(out)
    for path in ("kept", "kept/none/out", "kept/out/out", "kept/new/", ""):
        refuses(run, path)
    same(names_in(kept), ["out"])


def one_file(run: Run) -> None:
    """The block is not written over, by whatever path; another file is."""
    one = folder(run, "one")
    block = written(one / "file", GIVEN)
    os.link(block, one / "hard")
    for name, to in (("soft", "file"), ("loop", "loop")):
        (one / name).symlink_to(to)
    old(run, "one/other")

    def rewritten(file: str, path: str) -> EndedCommand:
        return rvstm(run, "migrate", file, "--out", path, folder=run.place)

    for file, path in (
        ("one/file", "one/file"), ("one/file", "one/../one/./file"), ("one/file", "one/hard"), ("one/file", "one/soft"),
        ("one/soft", "one/hard"), ("one/file", "one/loop"), ("one/file", "one/file/none"),
    ):
        rewritten(file, path).refused(UNWRITABLE)
    same(block.read_text(encoding="utf-8"), GIVEN)
    for path in ("one/other", "one/none"):
        rewritten("one/file", path).done()
        same((run.place / path).read_text(encoding="utf-8"), NEW, path)
    same(names_in(one), ["file", "hard", "loop", "none", "other", "soft"])


def with_failing(run: Run, kind: str, number: int, error: int, name: str = "migrate", file: str = "block") -> EndedCommand:
    """A command puts its file at `failing/out`, and one call on a file fails."""
    written(run.place / "block", GIVEN)
    written(run.place / "source", SOURCE)
    words: list[Word] = [run.program, name, file, "--out", "failing/out"]
    return command(words, run.place, more={**loaded(run, "failing_files.c"), "FAILING": f"{kind} {number} {error}"})


COMMANDS = (("migrate", "block", "rvstm: block Memory 8"), ("asm", "source", "rvstm: asm Memory 8"))
"""Each with the file that it is given, and the line if memory runs out."""
FAILURES = (
    ("resolve", 1, errno.ENOMEM, True), ("resolve", 1, errno.ENOMEM, False), ("resolve", 1, errno.EACCES, True),
    ("resolve", 1, errno.ELOOP, True), ("look", 1, errno.EACCES, True), ("look", 2, errno.EACCES, True), ("look", 2, errno.ENOMEM, True),
    ("look_at_link", 1, errno.ENOMEM, False), ("look_at_link", 1, errno.EACCES, False), ("open", 1, errno.EACCES, True),
    ("open", 1, errno.ENOMEM, True), ("make", 1, errno.EACCES, True), ("make", 1, errno.ENOSPC, False), ("write", 1, errno.ENOSPC, True),
    ("write", 1, errno.EIO, False), ("fill", 1, 0, True), ("sync", 1, errno.EIO, True), ("sync", 1, errno.EIO, False),
    ("rename", 1, errno.EACCES, True), ("rename", 1, errno.ENOMEM, False),
)
"""The kind of call and which of them fails, with which error, and whether a file is at the path."""


def failing(run: Run) -> None:
    """If a call on a file fails, what is at the path stays, and nothing is left beside it."""
    place = folder(run, "failing")
    out = place / "out"
    for kind, number, error, is_there in FAILURES:
        for name, file, no_memory in COMMANDS:
            out.unlink(missing_ok=True)
            if is_there:
                old(run, "failing/out")
            with_failing(run, kind, number, error, name, file).refused(no_memory if error == errno.ENOMEM else UNWRITABLE)
            same(names_in(place), ["out"] if is_there else [], f"{kind} {number} {error}")
            if is_there:
                has_old(out)


def stolen(run: Run) -> None:
    """If somebody puts another file at the new file's name, that one is not removed."""
    place = folder(run, "failing")
    with_failing(run, "steal", 1, errno.EACCES).refused(UNWRITABLE)
    same(names_in(place), NEW_NAMES[:1])
    same((place / NEW_NAMES[0]).read_text(encoding="utf-8"), "another")


def cases() -> list[Case]:
    plain: dict[str, Callable[[Run], None]] = {
        "a file is made and replaced": made_and_replaced, "a left-over file is removed": left_over, "other names stay": other_names,
        "all names are taken": all_names, "links are followed": links, "devices and pipes are written": devices_and_pipes,
        "what can't be written stays": unwritable, "the block is not written over": one_file,
    }
    shimmed: dict[str, Callable[[Run], None]] = {"a failing call leaves the file": failing, "another file is not removed": stolen}
    return [
        *(Case(f"replacing: {name}", run) for name, run in plain.items()),
        *(Case(f"replacing: {name}", run, (Tool.CC,)) for name, run in shimmed.items()),
    ]
