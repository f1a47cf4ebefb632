"""Runs of sequences of random calls in one session of `rvstm chain`, and what they break."""

import collections
from collections.abc import Callable, Iterable, Iterator, Mapping, Sequence
from dataclasses import dataclass, replace
from pathlib import Path
from random import Random
from types import SimpleNamespace
from typing import NamedTuple, Self

from rvstm_tools.errors import UserError
from rvstm_tools.exploring import expressions, storages
from rvstm_tools.exploring.comparing import Data
from rvstm_tools.exploring.descriptions import CallLineKind, Description
from rvstm_tools.exploring.expressions import MODEL, Names, Raised, Rule
from rvstm_tools.exploring.models import Model
from rvstm_tools.exploring.places import Value
from rvstm_tools.exploring.storages import StorageByReceipts
from rvstm_tools.sessions import frames, requests
from rvstm_tools.sessions.answers import Kind as AnswerKind
from rvstm_tools.sessions.processes import Session, Settings
from rvstm_tools.sessions.requests import Request, Word
from rvstm_tools.texts import blocks, results, words
from rvstm_tools.texts.keys import Storage
from rvstm_tools.texts.results import ENDS_WITH_OUTPUT, End, Receipt

MOST_SEEN = 64  # numbers of the storage and of outputs that are kept to draw from


@dataclass
class DrawnCall:
    """A call. If time passes before it, it begins the next block."""

    kind: CallLineKind
    values: dict[str, Value]
    step: int | None = None  # how much time passes before it

    def words(self) -> str:
        return " ".join(["call", self.kind.program, str(self.kind.gas), *filter(None, self.kind.words_with(self.values))])


@dataclass(frozen=True)
class Broken:
    """What a sequence breaks: at which call, which rule, what that says, and what the last call changed."""

    at: int
    rule: str
    text: str
    changes: Sequence[str]

    def is_as(self, other: "Broken | None") -> bool:
        return other is not None and self.rule == other.rule


class Counted(NamedTuple):
    """An end of calls that is counted: the line of the call, the end, and the output of one that reverted."""

    line: int
    end: End
    output: bytes


@dataclass(frozen=True)
class Finding:
    calls: Sequence[DrawnCall]
    outcomes: Sequence[Receipt]
    broken: Broken


def drawn_call(random: Random, kinds: Sequence[CallLineKind], seen: Sequence[int]) -> DrawnCall:
    kind = kinds[random.randrange(len(kinds))]
    return DrawnCall(kind, {name: place.drawn(random, seen) for name, place in kind.places.items()})


def left(calls: Sequence[DrawnCall], kept: Iterable[int]) -> list[DrawnCall]:
    """Some of the calls. The time that passes before one that is left out passes before the next one."""
    found, at = [], 0
    for number in kept:
        steps = [call.step for call in calls[at : number + 1] if call.step is not None]
        found.append(replace(calls[number], step=sum(steps) if steps else None))
        at = number + 1
    return found


def blocks_of(calls: Iterable[DrawnCall]) -> Iterator[list[DrawnCall]]:
    """The calls by their blocks, of which no frame has too many calls."""
    block: list[DrawnCall] = []
    for call in calls:
        if block and (call.step is not None or len(block) == blocks.MOST_CALLS):
            yield block
            block = []
        block.append(call)
    if block:
        yield block


class SequenceRun:
    def __init__(self, rvstm: Path, description: Description) -> None:
        self.rvstm = rvstm
        self.description = description
        self.storage = StorageByReceipts(description.blocks.view)
        self.counts = collections.Counter[Counted]()
        self.calls = 0  # how many calls were made in all
        self.done = 0  # how many calls of the sequence broke nothing
        self.outcomes: list[Receipt] = []  # of the sequence
        self.seen = collections.deque[int](maxlen=MOST_SEEN)
        self.model: Model | None = None
        self.watch: Callable[[DrawnCall, Receipt], None] | None = None  # what sees each call that was made
        self.numbers = {name: number for number, name in enumerate(description.programs)}
        for text in description.stores:
            self.storage.new_key(words.words_of(text)[1])
        self.view = self.storage.view()
        self.before = SimpleNamespace(**self.storage.before())
        every = {name: place.samples() for name, place in description.word_places().items()}
        self.names: Names = {
            **vars(self.view), "before": self.before, "every": SimpleNamespace(**every),
            "number": storages.number_of, "sha256": storages.digest_of,
        }

    def __enter__(self) -> Self:
        self.session = Session(self.rvstm, Settings(brief=True))
        try:
            self._hand_in_programs()
        except BaseException:
            self.session.kill()
            raise
        return self

    def _hand_in_programs(self) -> None:
        block = self.description.blocks.block
        self.head = block.rules.head
        for number, path in enumerate(self.description.programs.values()):
            file = Path(path).read_bytes()
            self.ask(Request(Word.PROGRAM, (), file), path)
            self.head += f"program {number} {frames.name_of(file)}\n"
        self.first = requests.begin(0, None, frames.dump_of(block.rules, block.storage))

    def __exit__(self, *_: object) -> None:
        self.session.kill()

    def ask(self, request: Request, what: str) -> bytes:
        """The bytes of the answer to a request that is not refused."""
        answer = self.session.ask(request)
        if answer is None or answer.kind is not AnswerKind.OK:
            raise UserError(f"{what}: {'rvstm chain ended' if answer is None else answer.said}")
        return answer.body

    def begin(self) -> Broken | None:
        """Begins a sequence. Returns what its storage breaks before any call."""
        self.ask(self.first, self.description.path)
        self.storage.begin(self.description.blocks.block.storage)
        self.done, self.outcomes = 0, []
        self.time = self.description.time.first if self.description.time else 0
        self.seen.clear()
        if self.description.model:
            self.model = self.description.model.begin(self.view)
            self.names[MODEL] = self.model.state
        self.names |= dict.fromkeys(self.description.lets)
        self._keep_lets()
        broken = self._compute()
        self._keep_lets()
        return broken or self._first_broken(self.description.always) or self._broken_invariant()

    def go_on(self, calls: Sequence[DrawnCall]) -> Broken | None:
        """Runs calls as one block. Returns what the first one breaks that breaks something."""
        broken = self._pass_time(calls[0].step)
        if broken:
            return broken
        text = self.head + frames.store_lines(self.written).decode() + "".join(map(self._line_of, calls))
        body = self.ask(Request(Word.FRAME, (), text.encode()), self.description.path)
        outcomes = results.result_of(body.decode()).receipts
        for call, outcome in zip(calls, outcomes, strict=True):
            self.calls += 1
            self.outcomes.append(outcome)
            broken = self._after(call, outcome)
            if broken:
                return broken
            self.done += 1
        return None

    def _pass_time(self, step: int | None) -> Broken | None:
        """Writes the time before a block, as its node does. Returns a line `let` that cannot be computed then."""
        self.written: Storage = {}
        if step is None or not self.description.time:
            return None
        time = self.description.time
        self.time = time.after(self.time, step)
        self.written[time.key] = self.time.to_bytes(time.bits // 8, "little")
        self.storage.data |= self.written
        self._see(self.written.values())
        return self._compute()

    def end(self) -> Broken | None:
        """What the storage after a sequence breaks. Its last call counts as the one that breaks it."""
        self.done = max(0, self.done - 1)
        return self._first_broken(self.description.at_end)

    def finding_of(self, calls: Sequence[DrawnCall]) -> Finding | None:
        """What a whole sequence breaks, with the calls up to the one that does."""
        broken = self.begin()
        for block in blocks_of(calls):
            broken = broken or self.go_on(block)
        if not broken and calls:
            broken = self.end()
        return Finding(list(calls[: broken.at + 1]), self.outcomes[: broken.at + 1], broken) if broken else None

    def _line_of(self, call: DrawnCall) -> str:
        data = blocks.field_of(call.kind.data(call.values))
        return f"call {self.numbers[call.kind.program]} {call.kind.gas} {data}\n"

    def _compute(self) -> Broken | None:
        """Computes the lines `let` of the storage as it is. Returns one that cannot be computed."""
        for name, rule in self.description.lets.items():
            value = expressions.evaluated(rule, self.names)
            if isinstance(value, Raised):
                return self._broken(rule, value)
            self.names[name] = value
        return None

    def _keep_lets(self) -> None:
        self.before.__dict__.update({name: self.names[name] for name in self.description.lets})

    def _after(self, call: DrawnCall, outcome: Receipt) -> Broken | None:
        """Takes over what a call did, and checks what has to hold after it."""
        end, kind = outcome.end, call.kind
        self.counts[Counted(kind.line, end, outcome.output if end is End.REVERTED else b"")] += 1
        self.storage.take(outcome.changes)
        if self.watch:
            self.watch(call, outcome)
        self._see([outcome.output] if end is End.RETURNED else [])
        self._see(self.storage.data.get(key) or b"" for key in self.storage.changed)
        self.names |= call.values
        self.names |= {"end": end.value, "gas": outcome.gas, "output": Data(outcome.output)}
        self._keep_lets()
        if end not in kind.ends:
            rule = f"line {kind.line}: ended {end}"
            return Broken(self.done, rule, f"{rule}, and no line `may-end` allows it", self._changes())
        broken = self._other_answer(call, outcome)
        if not broken and (outcome.changes or self.model):
            broken = self._compute()
        if broken:
            return broken
        rules = [rule for rule in kind.rules if rule.when in ("holds", end)]
        return self._first_broken(self.description.always + rules) or self._broken_invariant()

    def _other_answer(self, call: DrawnCall, outcome: Receipt) -> Broken | None:
        method = call.kind.method
        if not self.model or not method or outcome.end not in ENDS_WITH_OUTPUT:
            return None
        difference = self.model.difference(method.name, call.values, outcome.end, outcome.output)
        if difference is None:
            return None
        return Broken(self.done, f"line {method.line}", f"line {method.line}: method {method.name}: {difference}", self._changes())

    def _broken_invariant(self) -> Broken | None:
        text = self.model.broken_invariant(self.view) if self.model else None
        return Broken(self.done, "the invariant", text, self._changes()) if text else None

    def _see(self, values: Iterable[bytes]) -> None:
        self.seen.extend(storages.number_of(data) for data in values if len(data) in words.NUMBER_SIZES)

    def _first_broken(self, rules: Iterable[Rule]) -> Broken | None:
        for rule in rules:
            value = expressions.answered(rule, self.names)
            if isinstance(value, Raised):
                return self._broken(rule, value)
            if not value:
                return self._broken(rule)
        return None

    def _broken(self, rule: Rule, raised: Raised | None = None) -> Broken:
        why = f": {raised.text}" if raised else ""
        return Broken(self.done, f"line {rule.line}", rule.said() + why, self._changes())

    def _changes(self) -> list[str]:
        """The lines `let` that the last call changed, and what they were."""
        lets: Mapping[str, Rule] = self.description.lets
        return [line for name in lets for line in storages.change_lines(name, getattr(self.before, name), self.names[name])]
