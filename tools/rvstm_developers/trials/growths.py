import argparse
import os
import re
from collections.abc import Callable, Iterable, Iterator, Sequence
from dataclasses import dataclass
from pathlib import Path
from typing import NamedTuple

from rvstm_developers import comparing, options, running, texts
from rvstm_developers.models.sessions import Known, SessionModel
from rvstm_developers.running import Word
from rvstm_developers.stores.files import answers_of
from rvstm_developers.texts import TOP
from rvstm_tools.options import Command, argument
from rvstm_tools.programs import finding
from rvstm_tools.programs.pipes import Ended
from rvstm_tools.programs.running import Program
from rvstm_tools.sessions import frames, requests
from rvstm_tools.sessions.answers import Answer
from rvstm_tools.sessions.processes import Settings
from rvstm_tools.sessions.requests import Request, key_field
from rvstm_tools.sessions.requests import Word as Asks
from rvstm_tools.texts.blocks import CallLine
from rvstm_tools.texts.keys import Storage, numbered_key

SECONDS_A_RUN = 60
TAKEN = "refused::second_tries::"
BLOCK, PROGRAM, RUN, ANSWER = (b"failed %s\n" % want for want in (b"block Memory 8", b"elf Memory 16", b"seq Memory 1", b"output Memory 3"))
FAILURES: dict[bytes, tuple[bytes, ...]] = {
    Asks.FRAME: (BLOCK, PROGRAM, RUN, ANSWER), Asks.TRY: (BLOCK, PROGRAM, RUN, ANSWER), Asks.PROGRAM: (PROGRAM, ANSWER),
    Asks.BEGIN: (BLOCK,), Asks.PROGRAMS: (ANSWER,), Asks.GET: (ANSWER,), Asks.LIST: (ANSWER,), Asks.DUMP: (ANSWER,),
    Asks.STATE: (ANSWER,), Asks.FORGET: (), Asks.LAST: (),
}
"""What a request may want memory for."""
REFUSED = re.compile(rb"rvstm: ([a-z]+ Memory [0-9]+|run Spawn 6)\n\Z")


@dataclass(frozen=True)
class Tools:
    """The library that refuses a request for memory, and the file that says that it did."""

    library: Path
    mark: Path


@dataclass(frozen=True)
class GrowthTrial:
    """What is run again and again, and how it may end after a refusal: of the trial, how it ended, and how it ends without one."""

    name: str
    folder: Path
    words: Sequence[Word]
    is_right: Callable[["GrowthTrial", Ended, Ended], bool]
    data: bytes = b""


class RunSums(NamedTuple):
    runs: int
    failed: int


def commands(rvstm: Path, place: Path) -> Iterator[GrowthTrial]:
    out, turns = place / "out.elf", place / "turns.schedule"
    turns.write_text("0\n1\n" * 200, encoding="utf-8")

    def of(name: str, example: str, *words: Word, data: bytes = b"") -> GrowthTrial:
        return GrowthTrial(name, TOP / "examples" / example, [rvstm, *words], is_right, data)

    yield of("seq", "counter", "seq", "counter.block")
    yield of("seq in C", "token", "seq", "token.block")
    yield of("seq with outputs of 32 bytes", "digest", "seq", "digest.block")
    yield of("run with outputs of 32 bytes", "digest", "run", "digest.block", "--workers", "2")
    yield of("conflicts", "auction", "conflicts", "auction.block")
    yield of("run", "counter", "run", "counter.block", "--workers", "4")
    yield of("drive", "counter", "drive", "counter.block", "--workers", "2", "--schedule", "turns.schedule")
    yield of("run with sums", "fees", "run", "fees.block", "--workers", "4")
    yield of("drive with sums", "fees", "drive", "fees.block", "--workers", "2", "--schedule", turns)
    yield of("asm", "counter", "asm", "counter.s", "--out", out)
    yield of("migrate", "counter", "migrate", "counter.block", "--out", out)
    yield of("dis", "counter", "dis", "counter.elf")
    yield of("debug", "counter", "debug", "counter.block", "--call", "2", data=b"s\nr\nm 00010000 16\ng 00000000\nb\nw\n")


def run_refused(trial: GrowthTrial, tools: Tools, number: int) -> Ended:
    """Runs a trial, of which the request for memory of a number is refused; none is if the number is 0."""
    more = {"LD_PRELOAD": str(tools.library), "FAILING_REQUEST": str(number), "REFUSED_FILE": str(tools.mark)}
    return running.run(trial.words, trial.folder, trial.data, SECONDS_A_RUN, {**os.environ, **more})


def is_right(trial: GrowthTrial, answer: Ended, wanted: Ended) -> bool:
    """Whether an answer of a run that met a refusal is one that it may be."""
    if answer.status == 0:
        return answer.output == wanted.output and not answer.errors
    if answer.status == 2:
        return not answer.output
    is_part = wanted.output.startswith(answer.output) if "debug" in trial.words else not answer.output
    return answer.status == 1 and REFUSED.match(answer.errors) is not None and is_part


def counts(first: int, last: int) -> list[CallLine]:
    return [CallLine(0, 1000, numbered_key(number)) for number in range(first, last)]


def counting_requests(file: bytes) -> Iterator[Request]:
    """Frames and tries that count keys, with refused ones, programs, beginnings and questions between them."""
    name = frames.name_of(file)
    stored = {numbered_key(number): texts.word(7) for number in range(40)}
    zeros, get = Request(Asks.GET, (key_field(numbered_key(0)),)), Request(Asks.GET, (key_field(numbered_key(30)),))

    def frame(
        calls: Sequence[CallLine], store: Storage | None = None, head: str = texts.HEADS[0], word: Asks = Asks.FRAME, program: str = name,
    ) -> Request:
        return Request(word, (), texts.block_text([program], store, calls, head).encode())

    questions = [Request(word) for word in (Asks.LAST, Asks.STATE, Asks.DUMP, Asks.PROGRAMS)]
    given, forget = Request(Asks.PROGRAM, (), file), Request(Asks.FORGET, (name.encode(),))
    broken = [frame([CallLine(1, 1000, b"")]), frame(counts(0, 1), program="0" * 64), Request(Asks.FRAME)]
    yield from (Request(Asks.LAST), given, Request(Asks.PROGRAM, (), file[:60]), given)
    yield from (frame(counts(0, 10), stored), *broken, frame(counts(0, 20), word=Asks.TRY), get)
    yield from (frame(counts(30, 80), {numbered_key(30): b"\xab" * 32}), Request(Asks.LIST, (key_field(numbered_key(5)), b"70")), *questions)
    yield from (frame(counts(60, 90), head=texts.HEADS[3]), frame(counts(0, 1)), get, zeros)
    yield from (forget, forget, frame(counts(0, 1)), *questions)
    dump = frames.dump_of(2, {numbered_key(number): b"\5" * 20 for number in range(20)})
    yield from (requests.begin(9, b"\xab" * 32, dump), requests.begin(0, bytes(32), b"rvblock 2\n"), *questions, given)
    yield from (frame(counts(10, 30), head=texts.HEADS[2]), *questions)


def working_requests(file: bytes) -> list[Request]:
    """Two frames of calls so long that threads run them, with requests after them."""
    calls = [CallLine(0, 100_000, numbered_key(number) + texts.word(4_000)) for number in range(16)]
    frame = Request(Asks.FRAME, (), texts.block_text([frames.name_of(file)], {}, calls).encode())
    get = Request(Asks.GET, (key_field(numbered_key(1)),))
    return [Request(Asks.PROGRAM, (), file), frame, frame._replace(word=Asks.TRY), frame, Request(Asks.DUMP), get]


class RefusedSession:
    def __init__(self, rvstm: Path, settings: Settings, asked: Iterable[Request]) -> None:
        self.settings, self.requests = settings, list(asked)
        self.text = requests.text_of(self.requests)
        known: Known = {}
        self.right = self.answers_but_for(rvstm, known, None)
        self.others = [self.answers_but_for(rvstm, known, number) for number in range(len(self.requests))]

    def answers_but_for(self, rvstm: Path, known: Known, failed: int | None) -> list[Answer | None]:
        """The answers if one request fails for want of memory; None for that."""
        model = SessionModel(Program(rvstm, comparing.SECONDS_A_BLOCK), self.settings, known)
        return [None if number == failed else model.answer(request) for number, request in enumerate(self.requests)]

    def is_right(self, _: GrowthTrial, answer: Ended, wanted: Ended) -> bool:
        if answer.status == 2 or REFUSED.match(answer.errors):
            return answer.status != 0 and not answer.output
        if answer.status or answer.errors:
            return False
        came = answers_of(answer.output).answers
        return came == self.right or any(self.is_but_for_one(came, other) for other in self.others)

    def is_but_for_one(self, came: Sequence[Answer], wanted: Sequence[Answer | None]) -> bool:
        """Whether answers are the wanted ones, with a want of memory for the one that is None."""
        if len(came) != len(wanted):
            return False
        failures = [FAILURES[request.word] for request in self.requests]
        return all(one.text() in may if other is None else one == other for one, other, may in zip(came, wanted, failures))


def is_passed(_: GrowthTrial, answer: Ended, wanted: Ended) -> bool:
    return answer.status == 0


def sessions_of(rvstm: Path, place: Path) -> Iterator[GrowthTrial]:
    work, counter = place / "work.elf", TOP / "examples/counter/counter.elf"
    running.output_of([rvstm, "asm", TOP / "bench/programs/work.s", "--out", work])
    counting, working = list(counting_requests(counter.read_bytes())), working_requests(work.read_bytes())

    def of(name: str, settings: Settings, asked: Iterable[Request]) -> GrowthTrial:
        session = RefusedSession(rvstm, settings, asked)
        return GrowthTrial(name, place, [rvstm, *settings.words()], session.is_right, session.text)

    yield of("chain", Settings(), [request for request in counting if request.word != Asks.BEGIN])
    yield of("chain with a digest and brief", Settings(digest=True, brief=True), counting)
    yield of("chain by threads", Settings(digest=True, workers=2), working)


def tests_of(path: Path, place: Path) -> Iterator[GrowthTrial]:
    listed = running.output_of([path, "--list"]).decode()
    for test in re.findall(r"^(\S+): test$", listed, re.MULTILINE):
        if test.startswith(TAKEN):
            yield GrowthTrial(test, place, [path, test], is_passed)


def run_all(place: Path, trials: Iterable[GrowthTrial]) -> RunSums:
    runs = failed = 0
    source, tools = Path(__file__).with_name("refuses.c"), Tools(place / "refuses.so", place / "refused")
    running.output_of(["cc", "-O1", "-shared", "-fPIC", "-w", "-o", tools.library, source])
    for trial in trials:
        wanted = run_refused(trial, tools, 0)
        number = refusals = 0
        while True:
            number += 1
            answer = run_refused(trial, tools, number)
            if not tools.mark.exists():
                break
            tools.mark.unlink()
            runs += 1
            refusals += answer.status != 0
            if not trial.is_right(trial, answer, wanted):
                failed += 1
                print(f"failed: {trial.name}, request {number}: {answer.status} {answer.errors!r} {answer.output[:99]!r}")
        print(f"{trial.name}: {number - 1} requests, {refusals} refused", flush=True)
    return RunSums(runs, failed)


def run(given: argparse.Namespace) -> int:
    with texts.new_folder() as place:
        trials = [*commands(given.rvstm, place), *sessions_of(given.rvstm, place)]
        sums = run_all(place, trials + ([*tests_of(given.tests, place)] if given.tests else []))
    print(f"{sums.runs} runs, {sums.failed} failed")
    return 1 if sums.failed else 0


COMMAND = Command(
    "Lets each request for memory fail in turn, and prints 'N runs, M failed'.",
    "crates/rvstm/out/rvstm crates/program_tests/out/program_tests_tests",
    run,
    (
        options.RVSTM,
        argument(
            "tests", metavar="TESTS", type=finding.absolute, nargs="?",
            help="the tests of library calls, as `rt test` in crates/program_tests leaves them in out/program_tests_tests",
        ),
    ),
)
