import argparse
import os
import random
import resource
import shutil
import sqlite3
import subprocess
import sys
import tomllib
from collections.abc import Callable, Iterator, Mapping
from contextlib import contextmanager, nullcontext, suppress
from functools import partial
from pathlib import Path
from random import Random
from subprocess import Popen
from typing import NamedTuple

from rvstm_developers import options, texts
from rvstm_developers.stores import files
from rvstm_developers.stores.files import NAMES, PLAIN, Both
from rvstm_tools import options as shared_options
from rvstm_tools.errors import UserError
from rvstm_tools.options import Command
from rvstm_tools.programs.pipes import Ended
from rvstm_tools.sessions.processes import Settings

BUSY, HOT_JOURNAL, UNREADABLE, NOT_A_SESSION, OTHER_SETTINGS = *NAMES[:4], NAMES[5]
NOBODY = 65534
OTHERS = (Settings(frame_limit=5_000), Settings(frame_gas=5_000), Settings(frame_gas=0), Settings(brief=True))
SMALL, LARGE = 1 << 19, 1 << 26  # bytes of a full disk, and of one with room
MOST_FRAMES, KEYS_A_FRAME = 100, 300
CHANGES = tomllib.loads(Path(__file__).with_name("store_changes.toml").read_text(encoding="utf-8"))["rows"]
HOT = """import os, sqlite3, sys
base = sqlite3.connect(sys.argv[1])
base.execute("PRAGMA journal_mode = DELETE")
base.execute("PRAGMA cache_size = 1")
base.execute("UPDATE storage SET value = zeroblob(200)")
os._exit(0)
"""


def folder_of(path: Path) -> dict[str, bytes | None]:
    return {place.name: place.read_bytes() if place.is_file() else None for place in path.parent.iterdir()}


def changed_names(before: Mapping[str, bytes | None], after: Mapping[str, bytes | None]) -> list[str]:
    """The files that a refused open changed. It may write a log that was there."""
    changed = {name for name, _ in after.items() ^ before.items()}
    return sorted(name for name in changed if name not in before or not name.endswith(files.LOG))


class Room(NamedTuple):
    """A disk with little room: the path of a file there, and how to make more room for a process, if one is there."""

    path: Path
    make: Callable[[Popen[bytes] | None], None]
    is_bounded: bool = False  # whether this process, and so each that it starts, may write short files alone


class StoreTrial:
    """A sound file, what a session over it holds, and how many trials there were."""

    def __init__(self, rvstm: Path, choice: Random, place: Path) -> None:
        self.choice, self.place, self.tried, self.bad = choice, place, 0, 0
        self.rvstm = Path(shutil.copy(rvstm, self.place / "rvstm"))  # where any user may run it
        self.folder = self.place / "files"
        self.path = self.folder / "file"
        self.fresh()
        self.held = files.made(self.rvstm, self.path, files.first_requests(choice))
        if files.run(self.rvstm, self.path).output != self.held:
            raise UserError("a session over a file does not go on as it was")
        self.sound = files.contents(self.path)

    def fresh(self) -> Path:
        shutil.rmtree(self.folder, ignore_errors=True)
        self.folder.mkdir()
        return self.path

    def sound_file(self) -> Path:
        """The path of a sound file, with nothing beside it but its log."""
        files.put(self.fresh(), self.sound)
        return self.path

    def tell(self, what: str, came: object, wanted: object) -> None:
        """Prints what came of a trial, and what was wanted if it is something else."""
        self.tried += 1
        self.bad += came != wanted
        print(f"{what}: {came}" + ("" if came == wanted else f"; BAD, and not {wanted}"), flush=True)

    def refuses(self, what: str, name: str, path: Path | None = None, settings: Settings = PLAIN, user: int | None = None) -> None:
        """A file is refused by a name, and nothing is changed or left behind."""
        path = path or self.path
        before = folder_of(path) if path.parent == self.folder else None
        run = files.run(self.rvstm, path, settings=settings, user=user)
        came = files.refusal_of(run) or f"{run.output[:60]!r} {run.errors!r} status {run.status}"
        came += "".join(f", and changes {name}" for name in (changed_names(before, folder_of(path)) if before is not None else ()))
        self.tell(what, came, name)

    def reads(self, what: str, held: bytes, path: Path | None = None) -> None:
        run = files.run(self.rvstm, path or self.path)
        is_read = run == Ended(held, b"", 0)
        came = "read" if is_read else files.refusal_of(run) or "read otherwise" if not run.errors else f"{run.errors!r}"
        self.tell(what, came, "read")


# ---- what is no file of a session


def other_database(path: Path, *pragmas: str) -> None:
    files.changed(path, "; ".join((*pragmas, "CREATE TABLE other (number)", "INSERT INTO other VALUES (1)")))


def try_foreign(trial: StoreTrial) -> None:
    texts = {"a short text": b"text\n", "a long text": b"text\n" * 9_999, "a head alone": b"SQLite format 3\0" + b"x" * 9_999}
    for what, text in texts.items():
        trial.fresh().write_bytes(text)
        trial.refuses(what, NOT_A_SESSION)
    other_database(trial.fresh())
    trial.refuses("a database of others", NOT_A_SESSION)
    other_database(trial.fresh(), "PRAGMA journal_mode = WAL")
    trial.refuses("one with a log", NOT_A_SESSION)
    trial.fresh().mkdir()
    trial.refuses("a folder", UNREADABLE)
    os.mkfifo(trial.fresh())
    trial.refuses("a pipe", UNREADABLE)
    trial.refuses("a device", UNREADABLE, Path("/dev/null"))
    trial.fresh()
    trial.refuses("a folder that is not there", UNREADABLE, trial.folder / "missing/file")


def try_links(trial: StoreTrial) -> None:
    """Links: one to a file is followed, one to nothing and a second name of a file are refused."""
    trial.fresh().symlink_to("nothing")
    trial.refuses("a link to nothing", UNREADABLE)
    link = trial.folder / "link"
    link.symlink_to(trial.sound_file().name)
    trial.reads("a link to a file", trial.held, link)
    name = trial.folder / "name"
    name.hardlink_to(trial.sound_file())
    trial.refuses("a second name", UNREADABLE, name)


def try_rights(trial: StoreTrial) -> None:
    """A file and a folder without rights, for another user if this one has all."""
    user = NOBODY if os.getuid() == 0 else None
    trial.sound_file().chmod(0o600 if user else 0)
    trial.refuses("a file without rights", UNREADABLE, user=user)
    trial.sound_file().chmod(0o444)
    trial.refuses("a file that may only be read", UNREADABLE, user=user)
    files.log_of(trial.sound_file()).unlink()
    trial.path.chmod(0o666)
    trial.folder.chmod(0o555)
    trial.refuses("a folder that takes no log", UNREADABLE, user=user)
    trial.path.unlink()
    trial.refuses("a folder that takes no file", UNREADABLE, user=user)
    trial.folder.chmod(0o755)


# ---- two at one file


def sqlite_is_locked(path: Path) -> bool:
    base = sqlite3.connect(path, timeout=0)
    try:
        base.execute("SELECT * FROM storage").fetchall()
        return False
    except sqlite3.OperationalError as error:
        return "locked" in str(error)
    finally:
        base.close()


def try_two(trial: StoreTrial) -> None:
    with files.OverFile(trial.rvstm, trial.sound_file()) as first:
        first.held()
        trial.refuses("a second session", BUSY)
        trial.tell("sqlite3 beside a session", "locked" if sqlite_is_locked(trial.path) else "not locked", "locked")
        trial.tell("the first session", "goes on" if first.held() == trial.held else "differs", "goes on")
        first.end()
    trial.reads("a session after the first", trial.held)
    base = sqlite3.connect(trial.path)
    base.execute("SELECT * FROM storage").fetchone()
    run = files.run(trial.rvstm, trial.path)
    trial.tell("a session beside sqlite3", files.refusal_of(run), BUSY)
    base.close()
    trial.reads("a session after sqlite3", trial.held)


def try_journal(trial: StoreTrial) -> None:
    subprocess.run([sys.executable, "-c", HOT, trial.sound_file()], check=True)
    trial.refuses("a hot journal", HOT_JOURNAL)
    files.read_by_sqlite(trial.path)
    trial.reads("one that sqlite3 mended", trial.held)


# ---- a log whose file is gone


def remove(path: Path) -> None:
    path.unlink()


def move(path: Path) -> None:
    """Moves it to another name in its folder."""
    path.rename(path.with_name("moved"))


def replace(path: Path) -> None:
    """Puts a copy in its place: the same bytes, in another file."""
    copy = path.with_name("copy")
    copy.write_bytes(path.read_bytes())
    copy.rename(path)


def move_and_link(path: Path) -> None:
    """Moves it, and leaves a link that leads to it: the next session would look for the log beside where it leads."""
    move(path)
    path.symlink_to("moved")


def move_twice(path: Path) -> None:
    move(path)
    path.with_name("moved").rename(path)


WAYS = {"removed": remove, "moved": move, "replaced": replace, "moved, with a link in its place": move_and_link}


def try_taken_away(trial: StoreTrial) -> None:
    """Files that are taken away from a session between two frames: the next frame ends it, and is not answered."""
    log = files.log_of(trial.path)
    for name, way in WAYS.items():
        for place in (trial.path, log):
            what = f"{place.name} {name}"
            take(trial, what, trial.sound_file(), partial(way, place))
            if way is move:
                place.with_name("moved").rename(place)
                came = files.run(trial.rvstm, trial.path)
                trial.tell(f"{what}, put back, the next session", "read" if not came.status else came.errors, "read")
    link = trial.folder / "link"

    def lead_elsewhere() -> None:
        other = trial.folder / "other"
        shutil.copy(trial.path, other)
        link.unlink()
        link.symlink_to(other.name)

    trial.sound_file()
    link.symlink_to(trial.path.name)
    take(trial, "a link led elsewhere", link, lead_elsewhere)
    with files.OverFile(trial.rvstm, trial.sound_file()) as session:
        move_twice(trial.path)
        move_twice(log)
        answer = session.ask(files.frame(trial.choice, 1))
        trial.tell("both moved away and back, a frame", "answered" if answer else session.end(), "answered")


def take(trial: StoreTrial, what: str, path: Path, way: Callable[[], None]) -> None:
    """Takes a file away from a session that was asked something, and gives it questions and a frame."""
    with files.OverFile(trial.rvstm, path) as session:
        before = session.held()
        way()
        trial.tell(f"{what}, questions", "answered" if session.held() == before else "differ", "answered")
        answer = session.ask(files.frame(trial.choice, 1))
        came = f"a frame is answered {answer.line!r}" if answer else files.refusal_of(session.end())
        trial.tell(f"{what}, a frame", came, UNREADABLE)


def try_bereft(trial: StoreTrial) -> None:
    """A log whose file is missing, empty or of one byte: one with all that a killed session kept, and others."""
    held = files.made(trial.rvstm, trial.fresh(), files.first_requests(trial.choice))
    killed = files.contents(trial.path)
    log = killed.log or b""
    trial.path.write_bytes(b"")
    trial.refuses("an empty file beside its log", NOT_A_SESSION)
    trial.path.unlink()
    run = files.run(trial.rvstm, trial.path)
    is_kept = files.contents(trial.path) == Both(b"", log)
    trial.tell("no file beside its log", files.refusal_of(run) if is_kept else "the log is changed", NOT_A_SESSION)
    files.put(trial.path, killed)
    trial.reads("the same with the file put back", held)
    for byte in (b"\0", b"S"):
        files.put(trial.fresh(), Both(byte, log))
        trial.reads(f"a file of the byte {byte[0]} beside its log", held)
    first = 32 + 24 + 4096  # bytes of a log's header and its first frame
    rests = {"no bytes": b"", "its header alone": log[:32], "a frame that is no commit": log[:first], "other bytes": b"x" * first}
    for what, rest in rests.items():
        for file in (b"", b"\0"):
            files.put(trial.fresh(), Both(file, rest))
            with files.Plain(trial.rvstm) as plain:
                trial.reads(f"a file of {len(file)} bytes beside a log of {what}", plain.held())


# ---- what was changed between two sessions


def try_changes(trial: StoreTrial) -> None:
    for what, refusal, statements in CHANGES:
        files.changed(trial.sound_file(), statements)
        if refusal:
            trial.refuses(f"by sqlite3, {what}", refusal)
        else:
            read = files.read_by_sqlite(files.copied(trial.path, trial.place))
            trial.reads(f"by sqlite3, {what}", files.answers_by(read.rows))


def try_settings(trial: StoreTrial) -> None:
    trial.sound_file()
    for settings in OTHERS:
        trial.refuses(f"other settings, {' '.join(settings.words()[1:])}", OTHER_SETTINGS, settings=settings)
    trial.reads("the settings of the file", trial.held)


# ---- a full disk


def mounted_larger(place: Path) -> None:
    subprocess.run(["mount", "-o", f"remount,size={LARGE}", place], check=True)


@contextmanager
def small_disk(trial: StoreTrial) -> Iterator[Room | None]:
    """A disk with little room; None if it may not be mounted."""
    place = trial.place / "disk"
    place.mkdir(exist_ok=True)
    if subprocess.run(["mount", "-t", "tmpfs", "-o", f"size={SMALL}", "tmpfs", place], capture_output=True).returncode:
        yield None
        return
    try:
        yield Room(place / "file", lambda _: mounted_larger(place))
    finally:
        subprocess.run(["umount", "-l", place], check=True)


@contextmanager
def bounded() -> Iterator[None]:
    """Bounds the length of files that this process and those that it starts write, and lets such a write fail."""
    before = resource.getrlimit(resource.RLIMIT_FSIZE)
    resource.setrlimit(resource.RLIMIT_FSIZE, (SMALL, before[1]))
    try:
        yield
    finally:
        resource.setrlimit(resource.RLIMIT_FSIZE, before)


def raised(process: Popen[bytes] | None) -> None:
    """Lets a process write longer files."""
    assert process is not None
    resource.prlimit(process.pid, resource.RLIMIT_FSIZE, (LARGE, LARGE))


def try_full(trial: StoreTrial) -> None:
    """A disk that gets full under a session, or is full as it starts."""
    with small_disk(trial) as disk:
        if disk:
            fill(trial, "a full disk", disk)
        else:
            print("a full disk: no tmpfs may be mounted here; left out")
    with small_disk(trial) as disk:
        if disk:
            start_full(trial, disk)
    fill(trial, "a file as long as it may be", Room(trial.fresh(), raised, is_bounded=True))


def fill(trial: StoreTrial, what: str, room: Room) -> None:
    """Gives frames to a session until one fails, and then once more after there is room."""
    with bounded() if room.is_bounded else nullcontext():
        session = files.OverFile(trial.rvstm, room.path, is_as_here=room.is_bounded)
    with session, files.Plain(trial.rvstm) as plain:
        for number in range(MOST_FRAMES):
            request = files.frame(trial.choice, KEYS_A_FRAME)
            answer = session.ask(request)
            if answer is None or answer.line in files.FAILURES:
                break
            if answer != plain.ask(request):
                raise UserError(f"{what}: a frame is answered otherwise")
        print(f"{what}: after {number} frames: {session.end()[1:] if answer is None else answer.line!r}")
        if room.is_bounded:
            trial.tell(f"{what}, a frame", answer and answer.line, b"failed store Full 8\n")
        before = plain.held()
        if answer is not None:
            trial.tell(f"{what}, the session", "goes on" if session.held() == before else "differs", "goes on")
            room.make(session.process)
            again = session.ask(request)
            trial.tell(f"{what}, with room", "done" if again == plain.ask(request) else str(again), "done")
            before = plain.held()
            trial.tell(f"{what}, at the end", session.end()[1:], (b"", 0))
        else:
            room.make(session.process)
            plain.ask(request)
        came = files.run(trial.rvstm, room.path)
        is_right = came.output in (before, plain.held()) and not came.status
        trial.tell(f"{what}, the next session", "read" if is_right else f"{came.errors!r} or other contents", "read")


def start_full(trial: StoreTrial, room: Room) -> None:
    filler = room.path.parent / "filler"
    with open(filler, "wb", buffering=0) as file, suppress(OSError):
        while file.write(bytes(4096)):
            pass
    came = files.run(trial.rvstm, room.path)
    left = sorted(place.name for place in room.path.parent.iterdir() if place != filler)
    refusal = files.refusal_of(came)
    trial.tell(f"a disk that is full at the start, {refusal}, which leaves {left}", "refused" if refusal else str(came), "refused")
    room.make(None)
    with files.Plain(trial.rvstm) as plain:
        trial.reads("the same with room", plain.held(), room.path)


TRIALS = (try_foreign, try_links, try_rights, try_two, try_journal, try_taken_away, try_bereft, try_changes, try_settings, try_full)


def run(given: argparse.Namespace) -> int:
    with texts.new_folder("store-faults-") as place:
        os.chmod(place, 0o755)
        trial = StoreTrial(given.rvstm, random.Random(given.seed), place)
        for part in TRIALS:
            part(trial)
    print(f"{trial.tried} trials, {trial.bad} bad")
    return 1 if trial.bad else 0


COMMAND = Command(
    "Gives `rvstm chain --store FILE` foreign, locked, changed and full files, and compares how it refuses or reads them.",
    "crates/rvstm/out/rvstm",
    run,
    (options.RVSTM, shared_options.SEED),
)
