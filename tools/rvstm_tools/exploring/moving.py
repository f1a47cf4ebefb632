"""Numbers of calls that move with the storage.

A number that is near one of the storage, or of an output before its call, often depends on it: a payment of the whole balance. If a
call is left out, the storage has other numbers then, and such a number has to be moved by as much.
"""

from collections.abc import Sequence
from dataclasses import replace
from typing import NamedTuple

from rvstm_tools.exploring import runs, storages
from rvstm_tools.exploring.places import DISTANCES, NumberSpans, Value
from rvstm_tools.exploring.runs import DrawnCall, Finding, SequenceRun
from rvstm_tools.texts import words
from rvstm_tools.texts.keys import Key
from rvstm_tools.texts.results import End, Receipt


class OutputOf(NamedTuple):
    call: int


Source = Key | OutputOf  # where a number comes from

FromSources = dict[Source, int]  # the numbers that a sequence changed or returned so far, those of the last call first


def add(numbers: FromSources, at: int, outcome: Receipt, run: SequenceRun) -> FromSources:
    """The numbers after a call. Of a run it has to be the last call."""
    found: FromSources = {}
    if outcome.end is End.RETURNED and len(outcome.output) in words.NUMBER_SIZES:
        found[OutputOf(at)] = storages.number_of(outcome.output)
    for key in outcome.changes:
        value = run.storage.data.get(key, b"")
        if not value or len(value) in words.NUMBER_SIZES:
            found[key] = storages.number_of(value)
    return found | {source: number for source, number in numbers.items() if source not in found}


class Moving:
    def __init__(self, run: SequenceRun, finding: Finding) -> None:
        self.run = run
        self.calls = finding.calls

    def without(self, left_out: int) -> Sequence[DrawnCall] | None:
        """The calls without one, if a number after it is moved. They run one by one to see what the storage has."""
        before = self._numbers()
        kept = [at for at in range(len(self.calls)) if at != left_out]
        made: list[DrawnCall] = []
        numbers: FromSources = {}
        is_broken = bool(self.run.begin())
        for at, call in zip(kept, runs.left(self.calls, kept), strict=True):
            moved = {name: self._moved_value(call, name, before[at], numbers) for name in call.values}
            made.append(replace(call, values=moved))
            if not is_broken:
                is_broken = bool(self.run.go_on(made[-1:]))
                numbers = add(numbers, at, self.run.outcomes[-1], self.run)
        return made if made != runs.left(self.calls, kept) else None

    def _numbers(self) -> list[FromSources]:
        """The numbers before each call, in the sequence as it is."""
        numbers: FromSources = {}
        found = []
        self.run.begin()
        for at, call in enumerate(self.calls):
            found.append(numbers)
            self.run.go_on([call])
            numbers = add(numbers, at, self.run.outcomes[-1], self.run)
        return found

    def _moved_value(self, call: DrawnCall, name: str, before: FromSources, now: FromSources) -> Value:
        """A value of a call; of a number the one that is as far from those now as it was from those before."""
        value, place = call.values[name], call.kind.places[name]
        if not isinstance(value, int) or not isinstance(place, NumberSpans):
            return value
        for source, number in before.items():
            distance = value - number
            moved = self._number_now(source, now) + distance
            if distance in DISTANCES and moved != value and place.has(moved):
                return moved
        return value

    def _number_now(self, source: Source, now: FromSources) -> int:
        """The number that a source has in the run as far as it is."""
        if isinstance(source, OutputOf):
            return now.get(source, 0)
        value = self.run.storage.data.get(source, b"")
        return storages.number_of(value) if len(value) in words.NUMBER_SIZES else 0
