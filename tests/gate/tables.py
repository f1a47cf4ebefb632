"""Tables by hand (tests/tables, whose README has the form): command lines, requests and blocks, with what comes."""

import itertools
import tomllib
from collections.abc import Iterator, Sequence
from dataclasses import dataclass, field
from functools import partial
from pathlib import Path
from typing import Any

from gate.calls import EndedCommand, rvstm
from gate.clients import ClientSession, asks
from gate.outside import program_of
from gate.runner import TOP, Case, Run, holds, same, shown
from gate.texts import counts_of_workers, receipts

FOLDER = TOP / "tests/tables"


@dataclass(frozen=True)
class CommandRow:
    """Command lines, each over each of some inputs, which all have one answer."""

    lines: Sequence[str]
    name: str = ""
    inputs: Sequence[str] = ("",)
    input_file: str = ""
    """The file whose text is the input, in place of `inputs`."""
    texts: Sequence[str] = ()
    """Texts of the file `given`, over each of which the lines are run."""
    status: int = 0
    out: str = ""
    prints: str = ""
    """The file whose text is printed, in place of `out`."""
    pieces: Sequence[str] = ()
    """Pieces of what is printed, in their order, in place of the whole."""
    errors: str = ""
    said: str = ""
    """A piece of what is on standard error, in place of the whole."""
    files: dict[str, str] = field(default_factory=dict)
    """Files that are written before each line."""
    left: dict[str, str] = field(default_factory=dict)
    """What files have after each line."""
    left_hex: dict[str, str] = field(default_factory=dict)


@dataclass(frozen=True)
class ChangedImage:
    """A program file with other bytes at some places, or cut to some lengths, and how it is refused, if it is."""

    of: str
    changes: Sequence[tuple[int, int]] = ()
    lengths: Sequence[int] = ()
    refusal: str = ""

    def files(self, content: bytes) -> Iterator[bytes]:
        """The bytes of each such file."""
        changed = bytearray(content)
        for place, byte in self.changes:
            changed[place] = byte
        for length in self.lengths or (len(changed),):
            yield bytes(changed[:length])


@dataclass(frozen=True)
class SessionTurn:
    """A request of a session, or a program that is handed in, and the answer."""

    answer: str
    request: str = ""
    program: str = ""


@dataclass(frozen=True)
class TableBlock:
    """A block of some programs, with pieces of what it prints, and what `conflicts` prints of it."""

    name: str
    programs: Sequence[str]
    head: str = "rvblock 1\n"
    lines: str = ""
    pieces: Sequence[str] = ()
    conflicts: str = ""

    def text(self) -> str:
        """The block file. The path of each program is its number."""
        return self.head + "".join(f"program {number} {number}\n" for number in range(len(self.programs))) + self.lines


@dataclass(frozen=True)
class Schedule:
    """A list of worker numbers, by which the calls of a block come to what they come to in order."""

    name: str
    block: str
    workers: int
    turns: Sequence[tuple[int, int]] = ()
    """Workers, each with how often it is named."""
    digits: str = ""
    """The list as digits, in place of the turns."""
    executions: Sequence[int] = ()
    """How many runs each worker records, if that is given."""
    counts: Sequence[str] = ()
    """What is printed of each worker's counts, if that is given."""
    is_shortest: bool = False
    """Whether the workers are not done without the last entry."""

    def entries(self) -> list[str]:
        """The lines of the schedule file."""
        numbers = self.digits.replace("\n", "") if self.digits else "".join(str(worker) * times for worker, times in self.turns)
        return [f"{number}\n" for number in numbers]


@dataclass
class Table:
    """What a file of tests/tables has, with what it uses of others."""

    contents: dict[str, bytes] = field(default_factory=dict)
    """The files and programs, by their names."""
    links: dict[str, str] = field(default_factory=dict)
    rows: list[CommandRow] = field(default_factory=list)
    options: str = ""
    turns: list[SessionTurn] = field(default_factory=list)
    images: list[ChangedImage] = field(default_factory=list)
    blocks: list[TableBlock] = field(default_factory=list)
    schedules: list[Schedule] = field(default_factory=list)
    used_blocks: list[TableBlock] = field(default_factory=list)
    """Those of the tables that it uses, which have cases of their own."""

    def use(self, other: "Table") -> None:
        """Takes the files, programs and blocks of another table."""
        self.contents |= other.contents
        self.links |= other.links
        self.used_blocks += other.used_blocks + other.blocks

    def add(self, data: dict[str, Any]) -> None:
        """Takes what a file has. What no table may have is a TypeError or a ValueError."""
        for name in data.pop("uses", []):
            self.use(table(name))
        self.contents |= {name: text.encode() for name, text in data.pop("files", {}).items()}
        for name, parts in data.pop("repeated", {}).items():
            self.contents[name] = "".join(text * count for text, count in parts).encode()
        self.contents |= {name: bytes.fromhex(digits) for name, digits in data.pop("hex", {}).items()}
        self.contents |= {name: bytes(size) for name, size in data.pop("zeros", {}).items()}
        self.contents |= {name: program(words) for name, words in data.pop("programs", {}).items()}
        for name, size in data.pop("sizes", {}).items():
            self.contents[name] = self.contents[name].ljust(size, b"\0")
        self.links |= data.pop("links", {})
        self.rows += [CommandRow(**one) for one in data.pop("row", [])]
        self.options = data.pop("options", self.options)
        self.turns += [SessionTurn(**one) for one in data.pop("turn", [])]
        self.images += [ChangedImage(**one) for one in data.pop("image", [])]
        self.blocks += [TableBlock(**one) for one in data.pop("block", [])]
        self.schedules += [Schedule(**one) for one in data.pop("schedule", [])]
        if data:
            raise ValueError(f"a table has no {', '.join(data)}")

    def put(self, folder: Path) -> None:
        for name, to in self.links.items():
            (folder / name).symlink_to(to)
        for name, content in self.contents.items():
            (folder / name).write_bytes(content)


def program(words: str) -> bytes:
    """The file of a program, by the words of its text."""
    return program_of([int(word, 16) for word in words.split()])


def table(name: str) -> Table:
    read = Table()
    read.add(tomllib.loads((FOLDER / f"{name}.toml").read_text(encoding="utf-8")))
    return read


def has_pieces(text: str, pieces: Sequence[str]) -> bool:
    for piece in pieces:
        _, found, text = text.partition(piece)
        if not found:
            return False
    return True


# ---- command lines


def check_row(run: Run, one: CommandRow, contents: dict[str, bytes]) -> None:
    """Each command line over each text and input: its output, standard error and status, and what files have then."""
    inputs = [contents[one.input_file].decode()] if one.input_file else one.inputs
    for line, text, data in itertools.product(one.lines, one.texts or ("",), inputs):
        files = {**one.files, "given": text} if one.texts else one.files
        for name, content in files.items():
            (run.place / name).write_bytes(content.encode())
        words = line.split(" ") if line else []
        check_answer(one, contents, rvstm(run, *words, folder=run.place, data=data), f"{line} {shown(text or data)}".strip())
        left = {name: wanted.encode() for name, wanted in one.left.items()}
        left |= {name: bytes.fromhex(digits) for name, digits in one.left_hex.items()}
        for name, wanted_bytes in left.items():
            same((run.place / name).read_bytes(), wanted_bytes, f"{line}: {name}")


def check_answer(one: CommandRow, contents: dict[str, bytes], came: EndedCommand, what: str) -> None:
    """The case ends if an answer is not that of the row."""
    same(came.status, one.status, f"{what}: status")
    if one.pieces:
        holds(has_pieces(came.out, one.pieces), f"{what}: {came.out}", shown(repr(one.pieces)))
    else:
        same(came.out, contents[one.prints].decode() if one.prints else one.out, what)
    if one.said:
        holds(one.said in came.errors, f"{what}: {came.errors}", one.said)
    else:
        same(came.errors, one.errors, f"{what}: standard error")


# ---- program files


def check_image(run: Run, one: ChangedImage, contents: dict[str, bytes]) -> None:
    """A program file as `dis` reads it, and as a block has it."""
    (run.place / "block").write_text("rvblock 1\nprogram 0 given\n", encoding="utf-8")
    for content in one.files(contents[one.of]):
        (run.place / "given").write_bytes(content)
        for words in (("dis", "given"), ("seq", "block")):
            done = rvstm(run, *words, folder=run.place)
            came = (done.status, done.errors, bool(done.out))
            wanted = (1, f"rvstm: elf {one.refusal}\n", False) if one.refusal else (0, "", True)
            same(came, wanted, f"{words[0]} of {len(content)} bytes with {one.changes}")


# ---- requests


def check_turns(run: Run, given: Table) -> None:
    """One request after the other, each after the answer to the one before."""
    with ClientSession(run.program, *given.options.split()) as session:
        for turn in given.turns:
            session.expect(asks("program", given.contents[turn.program]) if turn.program else turn.request.encode(), turn.answer.encode())
        same(session.ended(), (b"", "", 0))


# ---- blocks


def check_blocks(run: Run, given: Table) -> None:
    """Each block in order, by threads, and along lists in which workers take turns; migrated, if it may be."""
    folders: dict[str, Path] = {}
    for number, block in enumerate(given.blocks + given.used_blocks):
        folder = folders[block.name] = run.place / str(number)
        folder.mkdir()
        (folder / "block").write_text(block.text(), encoding="utf-8")
        for program_number, name in enumerate(block.programs):
            (folder / str(program_number)).write_bytes(given.contents[name])
    for block in given.blocks:
        check_block(run, block, folders[block.name])
    for schedule in given.schedules:
        check_schedule(run, schedule, folders[schedule.block])


def check_block(run: Run, block: TableBlock, folder: Path) -> None:
    """A block by each engine: all print the same, which is a whole result and has the pieces."""
    wanted = rvstm(run, "seq", "block", folder=folder).done()
    receipts(wanted)
    holds(has_pieces(wanted, block.pieces), f"{block.name}: {wanted}", shown(repr(block.pieces)))
    same(rvstm(run, "run", "block", "--workers", "2", folder=folder).done(), wanted, f"{block.name} by threads")
    for workers in (1, 2, 3):
        (folder / "turns").write_text("".join(f"{step % workers}\n" for step in range(1000)), encoding="utf-8")
        words = ("drive", "block", "--workers", str(workers), "--schedule", "turns")
        same(rvstm(run, *words, folder=folder).done(), wanted, f"{block.name} by {workers} in turn")
    if block.head == "rvblock 1\n":
        same(rvstm(run, "migrate", "block", "--out", "migrated", folder=folder).done(), "")
        same((folder / "migrated").read_text(encoding="utf-8")[:16], "rvblock 2\ngas 1\n", block.name)
        same(rvstm(run, "seq", "migrated", folder=folder).done(), wanted, f"{block.name} migrated")
    if block.conflicts:
        same(rvstm(run, "conflicts", "block", folder=folder).done(), block.conflicts, block.name)


def check_schedule(run: Run, schedule: Schedule, folder: Path) -> None:
    """A list over a block: it prints what the calls print in order, and each worker counts what it must."""
    words = ("drive", "block", "--workers", str(schedule.workers), "--schedule", "list")
    entries = schedule.entries()
    (folder / "list").write_text("".join(entries), encoding="utf-8")
    came = rvstm(run, *words, *(["--counts"] if schedule.executions or schedule.counts else []), folder=folder)
    calls = len(receipts(came.out))
    same(came.done(), rvstm(run, "seq", "block", folder=folder).done(), schedule.name)
    workers = counts_of_workers(came.errors, calls) if schedule.executions or schedule.counts else []
    if schedule.executions:
        same([int(line.split()[7]) for line in workers], list(schedule.executions), f"{schedule.name}: executions")
    if schedule.counts:
        same(workers, list(schedule.counts), f"{schedule.name}: counts")
    if schedule.is_shortest:
        (folder / "list").write_text("".join(entries[:-1]), encoding="utf-8")
        rvstm(run, *words, folder=folder).refused("rvstm: drive NotDone 1")


# ---- all


def check(run: Run, name: str) -> None:
    given = table(name)
    if given.rows:
        given.put(run.place)
    for one in given.rows:
        check_row(run, one, given.contents)
    for image in given.images:
        check_image(run, image, given.contents)
    if given.turns:
        check_turns(run, given)
    check_blocks(run, given)


def named() -> Iterator[str]:
    """The tables that have cases: the others are used by these."""
    for path in sorted(FOLDER.glob("*.toml")):
        data = tomllib.loads(path.read_text(encoding="utf-8"))
        if data.keys() & {"row", "turn", "image", "block", "schedule"}:
            yield path.stem


def cases() -> list[Case]:
    return [Case(f"table {name}", partial(check, name=name)) for name in named()]
