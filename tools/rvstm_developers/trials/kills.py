import argparse
import random
import signal
import subprocess
import threading
import time
from collections import Counter
from collections.abc import Sequence
from dataclasses import dataclass
from pathlib import Path
from random import Random
from typing import IO

from rvstm_developers import options, texts
from rvstm_developers.drawing import blocks, sessions
from rvstm_developers.models import inputs
from rvstm_developers.models.inputs import Fault
from rvstm_developers.stores import files
from rvstm_developers.stores.files import QUESTIONS
from rvstm_tools import options as shared_options
from rvstm_tools.options import Command, argument
from rvstm_tools.programs.pipes import Ended
from rvstm_tools.sessions import answers, requests
from rvstm_tools.sessions.answers import Answer
from rvstm_tools.sessions.requests import Request, Word

WORKER_NUMBERS = (None, None, 2, 8)
ROUNDS_A_FILE = 25
ONE_IN = 8  # of so many sessions one ends by itself, and after one of so many rounds stock SQLite folds the log
ONE_IN_GREAT = 20  # of so many rounds one has a `begin` of 10,000 keys
GROUPS = 4  # of random requests in a round, each of up to fourteen
DELAYS = (0, 0.0003, 0.001, 0.003, 0.01, 0.05)  # seconds at most after an answer
LONGEST_OPENING = 0.3  # seconds until which a session is killed before its first answer, while it is not known how long that takes
LAST_BYTES = (b"q\n", b"", b"what\n", b"frame 9\nrv", b"get 00")


class Tape:
    def __init__(self, stream: IO[bytes]) -> None:
        self.stream, self.text = stream, b""

    def readline(self) -> bytes:
        return self.keep(self.stream.readline())

    def read(self, count: int = -1, /) -> bytes:
        return self.keep(self.stream.read(count))

    def keep(self, data: bytes) -> bytes:
        self.text += data
        return data


@dataclass(frozen=True)
class Killed:
    """How a session ended, and how long its first answer took; None if none was waited for."""

    ended: Ended
    opening: float | None


class Moment:
    """When a session is killed: some time after one of its answers, or never."""

    def __init__(self, choice: Random, count: int, opening: float) -> None:
        self.after = None if choice.randrange(ONE_IN) == 0 else choice.randrange(count + 1)
        self.delay = choice.uniform(0, choice.choice(DELAYS) if self.after else opening)

    def run(self, words: Sequence[str | Path], path: Path) -> Killed:
        with open(path, "rb") as text:
            process = subprocess.Popen(words, stdin=text, stdout=subprocess.PIPE, stderr=subprocess.PIPE)
        assert process.stdout is not None and process.stderr is not None
        clock = threading.Timer(files.SECONDS_A_SESSION, process.terminate)
        clock.start()
        began, tape = time.monotonic(), Tape(process.stdout)
        opening = None
        for _ in range(self.after or 0):
            if answers.next_answer(tape) is None:
                break
            opening = opening or time.monotonic() - began
        if self.after is not None:
            time.sleep(self.delay)
            process.kill()
        tape.read()
        errors, status = process.stderr.read(), process.wait()
        clock.cancel()
        process.stdout.close()
        process.stderr.close()
        return Killed(Ended(tape.text, errors, status), opening)


class KilledFile:
    """A file whose sessions are killed, and a session without a file that gets what they answered."""

    def __init__(self, rvstm: Path, choice: Random, folder: Path, programs: Sequence[str], place: Path, counts: Counter[str]) -> None:
        self.rvstm, self.choice, self.place, self.counts = rvstm, choice, place, counts
        self.made = sessions.RandomSession(choice, blocks.blocks_of(choice, programs), blocks.KEYS, folder)
        self.made.keeps_digest = True
        self.settings = sessions.settings_of(choice, self.made.fill().requests, True, choice.choice(WORKER_NUMBERS))
        self.path, self.input = place / "file", place / "input"
        self.plain = files.Plain(rvstm, self.settings)
        self.unsure: Request | None = None  # the request that may be kept
        self.begun = b""  # what there was of its answer
        self.opening, self.is_there = LONGEST_OPENING, False

    def batch(self) -> list[Request]:
        state, _, programs, *_ = self.plain.asked()
        self.made.rules, self.made.given = answers.state_of(state.body).rules, set(programs.body.decode().split())
        self.made.requests = []
        for _ in range(self.choice.randrange(1, GROUPS + 1)):
            self.made.fill()
        if self.choice.randrange(ONE_IN_GREAT) == 0:
            self.made.requests.insert(self.choice.randrange(len(self.made.requests)), files.great_begin(self.choice))
        return self.made.requests

    def round(self) -> str | None:
        batch, end = self.batch(), self.choice.choice(LAST_BYTES)
        self.input.write_bytes(requests.text_of(QUESTIONS + batch) + end)
        moment = Moment(self.choice, len(QUESTIONS + batch), self.opening)
        rows_before = files.copied(self.path, self.place) if self.is_there else None
        killed = moment.run(files.words_of(self.rvstm, self.path, self.settings), self.input)
        self.opening = killed.opening or self.opening
        written = files.answers_of(killed.ended.output)
        found, rest = written.answers[: len(QUESTIONS)], written.answers[len(QUESTIONS) :]
        bad, more = None, len(found) - len(QUESTIONS) + len(rest) - len(batch)
        if len(found) == len(QUESTIONS):
            bad = self.settled(found, rows_before) or self.compared(batch, rest, written.begun)
        return bad or self.ended(killed.ended, moment, more, len(batch), end) or self.folded()

    def settled(self, came: list[Answer], rows_before: Path | None) -> str | None:
        """Compares how a session finds the file with how it has to, and with what stock SQLite read before."""
        self.is_there = True
        if self.begun and self.unsure:
            self.counts["begun answers"] += 1
            if not self.plain.need(self.unsure).text().startswith(self.begun):
                return "an answer begins otherwise"
        elif self.unsure and self.plain.asked() != came:
            self.counts["kept before the answer"] += 1
            self.plain.ask(self.unsure)
        self.unsure, self.begun = None, b""
        if self.plain.asked() != came:
            return "the next session has other contents"
        return None if rows_before is None else files.difference_of_rows(rows_before, self.plain.held(), self.place)

    def compared(self, batch: list[Request], found: list[Answer], begun: bytes) -> str | None:
        """Compares the answers to some requests. The request after them may have been done."""
        for request, answer in zip(batch, found):
            self.counts["answers"] += 1
            self.counts["frames"] += request.word == Word.FRAME
            wanted = self.plain.need(request)
            if answer != wanted:
                return f"{request.text()[:60]!r}: {answer.text()[:200]!r} and not {wanted.text()[:200]!r}"
        if len(found) < len(batch):
            self.unsure, self.begun = batch[len(found)], begun
        return None

    def ended(self, run: Ended, moment: Moment, more: int, count: int, end: bytes) -> str | None:
        """Compares how a session ended. `more` is how many answers came after those to its `count` requests."""
        if run.status == -signal.SIGKILL and moment.after is not None:
            part = "at the end" if more >= 0 else "at work" if more + count >= 0 else "as they opened"
            self.counts[f"killed {part}"] += 1
            return None
        self.counts["ended by themselves"] += 1
        fault = inputs.requests_of(end).fault
        is_faulty = fault is not Fault.NONE
        is_right = (run.errors, run.status, more) == (b"rvstm: " + fault if is_faulty else b"", is_faulty, is_faulty)
        return None if is_right else f"{more} answers after the last one, {run.errors!r}, and status {run.status}"

    def folded(self) -> str | None:
        if not self.is_there or self.choice.randrange(ONE_IN):
            return None
        self.counts["folded by sqlite3"] += 1
        check = files.read_by_sqlite(self.path).check
        return None if check == "ok" else f"integrity_check: {check}"

    def keep(self) -> Path:
        kept = files.kept("kills-", self.path)
        (kept / "input").write_bytes(self.input.read_bytes())
        return kept


@dataclass
class KillRounds:
    rvstm: Path
    folder: Path
    choice: Random
    counts: Counter[str]
    done: int = 0
    bad: int = 0

    def over_one_file(self, place: Path, count: int) -> None:
        programs = self.choice.choice((blocks.contracts_of(self.folder), None)) or blocks.made_programs(self.rvstm, place, self.choice)
        file = KilledFile(self.rvstm, self.choice, self.folder, programs, place, self.counts)
        with file.plain:
            for _ in range(count):
                bad = file.round()
                self.done += 1
                if bad:
                    self.bad += 1
                    print(f"bad: {file.keep()}: {file.settings}: {bad}", flush=True)
                    return


def run(given: argparse.Namespace) -> int:
    rounds = KillRounds(given.rvstm, given.folder, random.Random(given.seed), Counter())
    while rounds.done < given.rounds:
        with texts.new_folder("kills-") as place:
            rounds.over_one_file(place, min(ROUNDS_A_FILE, given.rounds - rounds.done))
    counted = ", ".join(f"{rounds.counts[name]} {name}" for name in sorted(rounds.counts))
    print(f"{rounds.done} rounds, {rounds.bad} bad; {counted}")
    return 1 if rounds.bad else 0


COMMAND = Command(
    "Kills sessions of `rvstm chain --store FILE` at random moments, and compares the next one with a session without a file.",
    "crates/rvstm/out/rvstm tests/cases --rounds 500",
    run,
    (
        options.RVSTM,
        options.FOLDER,
        shared_options.SEED,
        argument("--rounds", type=int, default=100, metavar="N", help="how many sessions there are (100)"),
    ),
)
