import argparse
import random
import subprocess
from collections.abc import Iterator, Sequence
from pathlib import Path
from random import Random

from rvstm_developers import embedded_library, options, texts
from rvstm_developers.drawing import programs, sessions
from rvstm_developers.embedded_library import CLOSE, LETTERS, OPEN, OPEN_WITH, Called, Library, LibraryStatus
from rvstm_developers.models.inputs import Fault
from rvstm_developers.models.sessions import HIGHEST
from rvstm_developers.texts import TOP
from rvstm_tools.errors import UserError
from rvstm_tools.options import Command
from rvstm_tools.programs.pipes import Ended
from rvstm_tools.sessions import requests
from rvstm_tools.sessions.processes import Session
from rvstm_tools.sessions.requests import Request, Word
from rvstm_tools.texts.blocks import CallLine
from rvstm_tools.texts.keys import key_of, numbered_key

PROGRAMS = 8
KEYS = [key_of(bytes([number]), "") for number in range(4)]
VALGRIND = ("valgrind", "--leak-check=full", "--error-exitcode=4", "--errors-for-leak-kinds=all", "--show-leak-kinds=all")
SANITIZERS = ("-fsanitize=address,undefined", "-fno-sanitize-recover=all", "-g")
ZEROS = requests.key_field(numbered_key(0))
BAD_NAMES = (b"", b"0" * 63, b"0" * 65, b"A" * 64, b"-", b"0" * 63 + b"\n")
BAD_DIGESTS = (b"", b"--", b"0" * 63, b"F" * 64)
REFUSED_AS_A_LINE = Called(LibraryStatus.REFUSED, b"refused " + Fault.BAD_LINE)
LINES_SHOWN = 12


def block_of(choice: Random, paths: Sequence[str]) -> bytes:
    head, program = choice.choice(texts.HEADS), choice.choice(paths)
    keys = sorted(choice.sample(KEYS, choice.randrange(len(KEYS))))
    store = {key: choice.randbytes(choice.choice((1, 8, 8, 16))) for key in keys}
    calls = []
    for _ in range(choice.randrange(1, 12)):
        data = programs.input_of(choice, KEYS)
        calls.append(CallLine(0, choice.choice((1, 400, 20_000, 100_000)), data))
    return texts.block_text([program], store, calls, head).encode()


def blocks_of(choice: Random, paths: Sequence[str]) -> Iterator[bytes]:
    while True:
        yield block_of(choice, paths)


def bad_request(choice: Random) -> Request:
    """What no line says: a name, key or digest of another form, a count that is none, a height that is too great."""
    kind, name = choice.randrange(4), choice.choice(BAD_NAMES)
    if kind == 0:
        return Request(choice.choice((Word.FORGET, Word.GET)), (name,))
    if kind == 1:
        return Request(Word.LIST, choice.choice(((name, b"1"), (ZEROS, b"0"), (ZEROS, b"1025"), (ZEROS, b"%d" % 2**32))))
    digest = choice.choice((*BAD_DIGESTS, b"-", ZEROS))
    height = choice.choice((0, HIGHEST)) if digest in BAD_DIGESTS else HIGHEST + 1
    return Request(Word.BEGIN, (b"%d" % height, digest), b"rvblock 1\n")


class Compared:
    """A session of the library at a place of the driver, one of `rvstm chain`, and the requests that both are asked."""

    def __init__(self, choice: Random, driver: Library, place: int, rvstm: Path, paths: Sequence[str], folder: Path) -> None:
        self.choice, self.driver, self.place, self.count = choice, driver, place, 0
        asked = sessions.session_of(choice, blocks_of(choice, paths), KEYS, folder)
        self.requests, self.settings = asked.requests, asked.settings
        self.chain = Session(rvstm, self.settings)

    def want(self, wanted: Called, letter: bytes, data: bytes = b"") -> None:
        self.check(self.driver.call(self.place, letter, 0, data), wanted, (letter, data))

    def check(self, came: Called, wanted: Called, what: object) -> None:
        self.count += 1
        if came != wanted:
            raise UserError(f"{what!r}"[:200] + f": {came!r} and not {wanted!r}"[:600])

    def check_closed(self) -> None:
        for letter in (*sorted(LETTERS.values()), CLOSE):
            self.want(Called(LibraryStatus.CLOSED), letter)

    def open(self) -> None:
        """Opens the session, once with settings that none has, and twice more after it is open."""
        self.check_closed()
        self.want(Called(LibraryStatus.BAD_SETTINGS), OPEN_WITH, self.choice.choice(embedded_library.BAD_SETTINGS_TEXTS))
        self.want(Called(LibraryStatus.DONE, b"ok 0\n"), OPEN_WITH, embedded_library.settings_text(self.settings))
        self.want(Called(LibraryStatus.ALREADY_OPEN), OPEN)
        self.want(Called(LibraryStatus.ALREADY_OPEN), OPEN_WITH, embedded_library.BAD_SETTINGS_TEXTS[0])

    def step(self) -> None:
        """Asks both for the next request, or the library for what no line says, which changes nothing."""
        if self.choice.randrange(8) == 0:
            request = bad_request(self.choice)
            self.check(self.driver.ask(self.place, request), REFUSED_AS_A_LINE, request)
            return
        request = self.requests.pop(0)
        wanted = self.chain.ask(request)
        if wanted is None:
            raise UserError(f"chain does not answer {request!r}"[:400])
        status = embedded_library.OF_KINDS[wanted.kind]
        self.check(self.driver.ask(self.place, request), Called(status, wanted.line, wanted.body), request)

    def close(self) -> None:
        self.want(Called(LibraryStatus.DONE, b"ok 0\n"), CLOSE)
        self.check_closed()
        if self.chain.end() != Ended(b"", b"", 0):
            raise UserError("chain does not end by `q`")


def run_pair(choice: Random, driver: Library, rvstm: Path, paths: Sequence[str], folder: Path) -> int:
    """Two sessions side by side, in a random order that keeps that of each. Returns how many answers were compared."""
    pair = [Compared(choice, driver, place, rvstm, paths, folder) for place in range(2)]
    for one in pair:
        one.open()
    while asking := [one for one in pair if one.requests]:
        choice.choice(asking).step()
    for one in pair:
        one.close()
    return sum(one.count for one in pair)


def run(given: argparse.Namespace) -> int:
    if not embedded_library.ARCHIVE.is_file() or not embedded_library.SHARED.is_file():
        raise UserError(f"there is no {embedded_library.ARCHIVE}: `rvstm-tools library` makes it")
    if subprocess.run([TOP / "examples/embed/try", given.rvstm], check=False).returncode:
        raise UserError("the examples of examples/embed fail; what is wrong is above")
    choice = random.Random(given.seed)
    with texts.new_folder() as place:
        driver = str(embedded_library.compile_driver(place, SANITIZERS if given.sanitizers else ()))
        paths = [programs.make(given.rvstm, choice, place / f"{number}.elf").name for number in range(PROGRAMS)]
        with Library([*(VALGRIND if given.valgrind else ()), driver]) as driven:
            compared = sum(run_pair(choice, driven, given.rvstm, paths, place) for _ in range(given.count))
            said = driven.closed()
    print(f"{given.count} pairs of sessions, {compared} answers: none differs")
    print("\n".join(said.splitlines()[-LINES_SHOWN:]), end="\n" if said else "")
    return 0


def add_options(parser: argparse.ArgumentParser) -> None:
    parser.add_argument("count", metavar="COUNT", type=int, help="how many pairs of sessions are made")
    parser.add_argument("seed", metavar="SEED", type=int, nargs="?", default=1, help="one seed always makes the same sessions (1)")
    group = parser.add_mutually_exclusive_group()
    group.add_argument("--valgrind", action="store_true", help="runs the driver in valgrind, whose last lines are printed")
    group.add_argument("--sanitizers", action="store_true", help="compiles the driver with the sanitizers of addresses and undefined behaviour")


COMMAND = Command(
    "Compares random sessions of the library for C with those of `rvstm chain`, byte for byte.",
    "crates/rvstm/out/rvstm 20 --valgrind",
    run,
    (options.RVSTM, add_options),
)
