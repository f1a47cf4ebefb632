import argparse
import os
import random
from collections import Counter
from collections.abc import Iterable, Iterator
from dataclasses import dataclass
from pathlib import Path
from random import Random
from typing import Protocol, TypeVar

from rvstm_developers import options, running, texts
from rvstm_developers.drawing import blocks, sessions
from rvstm_developers.stores import disks, files
from rvstm_developers.stores.disks import FILE, OUTPUT, Disk, Step
from rvstm_developers.stores.files import Both
from rvstm_tools import options as shared_options
from rvstm_tools.errors import UserError
from rvstm_tools.options import Command, argument
from rvstm_tools.sessions.requests import Request, Word

RECORDER = Path(files.__file__).with_name("store_recorder.c")
REQUESTS, FRAMES = 40, 400  # of the first two sessions, and of the third
OTHER_CUTS, AROUND = 60, 6  # cuts of the third session, and calls around those on the file
ONE_IN, MOST_AGAIN = 50, 100  # one image in so many is recorded as it is opened, and the images of each of these
NOTHING = Both(None, None)

Item = TypeVar("Item")


# ---- sessions that are recorded


@dataclass(frozen=True)
class RecordedFrame:
    before: Both
    steps: list[Step]


@dataclass(frozen=True)
class Cut:
    """The disk after a step, and how many bytes of the output were written before."""

    disk: Disk
    written_before: int


class Allowed(Protocol):
    def at(self, written_before: int, /) -> list[bytes]:
        """The states that are allowed after so many bytes of the answers were written."""


@dataclass(frozen=True)
class Recording:
    """A session that was recorded: its name, what its images may hold, and the steps that are cut, or None for all."""

    name: str
    recorded: RecordedFrame
    expected: Allowed
    are_cut: set[int] | None = None


@dataclass(frozen=True)
class Image:
    both: Both
    allowed: list[bytes]


@dataclass(frozen=True)
class Opened:
    state: bytes
    bad: str | None = None


class Recorder:
    def __init__(self, rvstm: Path, place: Path) -> None:
        self.rvstm, self.path, self.list = rvstm, place / "file", place / "list"
        self.library = place / "recorder.so"
        running.output_of(["cc", "-O2", "-shared", "-fPIC", "-o", self.library, RECORDER])
        self.environment = dict(os.environ, LD_PRELOAD=str(self.library), STORE_FILE=str(self.path), STORE_LIST=str(self.list))

    def record(self, before: Both, asked: Iterable[Request]) -> RecordedFrame:
        """Records a session. What its steps leave has to be what is there."""
        files.put(self.path, before)
        self.list.unlink(missing_ok=True)
        run = files.run(self.rvstm, self.path, asked, environment=self.environment)
        if run.status or run.errors:
            raise UserError(f"a session that is recorded ends with status {run.status}: {run.errors!r}")
        recorded = RecordedFrame(before, disks.steps_of(self.list))
        there = files.contents(self.path)
        if Both(there.file or b"", there.log or b"") != after(recorded, len(recorded.steps)):
            raise UserError("a call that changes the file or its log is not in the list")
        return recorded


def after(recorded: RecordedFrame, number: int) -> Both:
    disk = Disk(recorded.before)
    for step in recorded.steps[:number]:
        if step.whose != OUTPUT:
            disk.take(step)
    return disk.both()


def last_answer(recorded: RecordedFrame) -> int:
    return max(number for number, step in enumerate(recorded.steps, 1) if step.whose == OUTPUT)


def cuts(recorded: RecordedFrame, are_cut: set[int] | None) -> Iterator[Cut]:
    disk, written_before = Disk(recorded.before), 0
    for number, step in enumerate(recorded.steps):
        if step.whose == OUTPUT:
            written_before += len(step.data)
        else:
            disk.take(step)
        if are_cut is None or number in are_cut:
            yield Cut(disk, written_before)


def around(choice: Random, recorded: RecordedFrame) -> set[int]:
    steps = recorded.steps
    numbers = {number + near for number, step in enumerate(steps) if step.whose == FILE for near in range(-AROUND, AROUND)}
    return numbers | {choice.randrange(len(steps)) for _ in range(OTHER_CUTS)}


class Expected:
    def __init__(self, plain: files.Plain, asked: Iterable[Request]) -> None:
        self.states = [plain.held()]
        self.ends: list[int] = []
        place = 0
        for request in asked:
            self.ends.append(place)
            place += len(plain.need(request).text())
            self.states.append(plain.held())

    def at(self, written_before: int) -> list[bytes]:
        """The states that are allowed after so many bytes of the answers were written."""
        begun = sum(end < written_before for end in self.ends)
        return self.states[begun : begun + 2]


class Same:
    def __init__(self, state: bytes) -> None:
        self.state = state

    def at(self, _: int) -> list[bytes]:
        return [self.state]


# ---- images that are opened


def sampled(choice: Random, items: Iterable[Item], most: int) -> list[Item]:
    """At most so many of some items, each as likely as the others."""
    taken: list[Item] = []
    for number, item in enumerate(items):
        place = choice.randrange(number + 1)
        if number < most:
            taken.append(item)
        elif place < most:
            taken[place] = item
    return taken


class Images:
    def __init__(self, rvstm: Path, choice: Random, place: Path, recorder: Recorder, most: int | None) -> None:
        self.rvstm, self.choice, self.place, self.recorder, self.most = rvstm, choice, place, recorder, most
        self.path = self.place / "image"
        self.seen: set[int] = set()
        self.counts: Counter[str] = Counter()

    def cut(self, what: Recording, depth: int = 0) -> None:
        made: Iterable[Image] = self.made(what)
        most = self.most if depth == 0 else MOST_AGAIN
        if most is not None:
            made = sampled(self.choice, made, most)
        for image in made:
            self.counts.update(("images", what.name))
            opened = self.opened(image)
            if opened.bad:
                self.tell(what.name, image.both, opened.bad)
            elif depth == 0 and self.choice.randrange(ONE_IN) == 0:
                recorded = self.recorder.record(image.both, files.QUESTIONS)
                self.cut(Recording("opened again", recorded, Same(opened.state)), depth=1)

    def made(self, what: Recording) -> Iterator[Image]:
        for cut in cuts(what.recorded, what.are_cut):
            allowed = what.expected.at(cut.written_before)
            for both in cut.disk.images(self.choice):
                key = hash((both, *allowed))
                if key not in self.seen:
                    self.seen.add(key)
                    yield Image(both, allowed)

    def opened(self, image: Image) -> Opened:
        files.put(self.path, image.both)
        run = files.run(self.rvstm, self.path)
        if run.status or run.errors:
            return Opened(run.output, f"status {run.status}, {run.errors!r}")
        if run.output not in image.allowed:
            return Opened(run.output, "it holds a state that is not allowed")
        first, *others = image.allowed
        self.counts["of the next request"] += run.output in others and run.output != first
        return Opened(run.output, files.difference_of_rows(self.path, run.output, self.place))

    def tell(self, name: str, image: Both, bad: str) -> None:
        self.counts["bad"] += 1
        files.put(self.path, image)
        print(f"bad, {name}: {files.kept('power-cuts-', self.path)}: {bad}", flush=True)


# ---- the sessions


def requests_of(choice: Random, folder: Path, number: int) -> list[Request]:
    made = sessions.RandomSession(choice, blocks.blocks_of(choice, blocks.contracts_of(folder)), blocks.KEYS, folder)
    made.keeps_digest = True
    while len(made.requests) < number:
        made.fill()
    return made.requests[:number]


def recorded_sessions(rvstm: Path, recorder: Recorder, choice: Random, folder: Path) -> Iterator[Recording]:
    with files.Plain(rvstm) as plain:
        asked = requests_of(choice, folder, REQUESTS)
        first = recorder.record(NOTHING, asked)
        yield Recording("of a first session", first, Expected(plain, asked))
        asked = requests_of(choice, folder, REQUESTS)
        second = recorder.record(after(first, last_answer(first)), asked)
        yield Recording("of a second session", second, Expected(plain, asked))
    with files.Plain(rvstm) as plain:
        asked = [request for request in requests_of(choice, folder, FRAMES) if request.word != Word.BEGIN]
        many = recorder.record(NOTHING, asked)
        yield Recording("of many frames", many, Expected(plain, asked), around(choice, many))
    with files.Plain(rvstm) as plain:
        asked = [*requests_of(choice, folder, 4), files.great_begin(choice), *requests_of(choice, folder, 4)]
        yield Recording("of a great begin", recorder.record(NOTHING, asked), Expected(plain, asked))


def run(given: argparse.Namespace) -> int:
    choice = random.Random(given.seed)
    with texts.new_folder("power-cuts-", is_in_memory=True) as place:
        recorder = Recorder(given.rvstm, place)
        images = Images(given.rvstm, choice, place, recorder, given.most)
        counts = images.counts
        for what in recorded_sessions(given.rvstm, recorder, choice, given.folder):
            images.cut(what)
            print(f"{counts[what.name]} images {what.name}, by {len(what.recorded.steps)} calls", flush=True)
    again, ahead = counts["opened again"], counts["of the next request"]
    print(f"{counts['images']} images, {counts['bad']} bad; {again} of those of images as they are opened, {ahead} hold the next request")
    return 1 if counts["bad"] else 0


COMMAND = Command(
    "Cuts the power under `rvstm chain --store FILE`, on images of the disk, and compares what each holds with what was answered.",
    "crates/rvstm/out/rvstm tests/cases --most 200",
    run,
    (
        options.RVSTM,
        options.FOLDER,
        shared_options.SEED,
        argument("--most", type=int, metavar="N", help="images of each session at most, taken at random"),
    ),
)
