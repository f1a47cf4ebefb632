"""Shorter and simpler sequences that break the same rule."""

import itertools
import time
from collections.abc import Callable, Container, Iterator, Sequence
from dataclasses import replace
from random import Random

from rvstm_tools.exploring import runs
from rvstm_tools.exploring.comparing import MistakeError
from rvstm_tools.exploring.moving import Moving
from rvstm_tools.exploring.places import NumberSpans, Place, Value, Words
from rvstm_tools.exploring.runs import DrawnCall, Finding, SequenceRun

MOST_FOR_PAIRS = 24  # calls of a sequence of which each two are left out, or one while the numbers after it move
MOST_FOR_SUMS = 12  # calls of a sequence of which one is left out, and its numbers are added or subtracted elsewhere
MOST_FOR_TWO_NUMBERS = 6  # calls of a sequence whose numbers are lowered two at a time
LONGEST_OTHERS = 3  # calls of the random sequences that are tried in place of a longer one
OTHERS = 1000  # of each length


class Over(Exception):
    """The time for shortening is over."""


class Shorter:
    def __init__(self, run: SequenceRun, finding: Finding, seconds: float, watch: Callable[["Shorter"], None] | None = None) -> None:
        self.run = run
        self.finding = finding  # the best so far
        self.watch = watch
        self.begun = time.monotonic()
        self.deadline = self.begun + seconds
        self.runs = 0

    @property
    def calls(self) -> Sequence[DrawnCall]:
        return self.finding.calls

    def spent(self) -> float:
        """Seconds."""
        return time.monotonic() - self.begun

    def shorten(self, random: Random) -> str:
        """Does all of this as long as something helps and there is time. Returns what ended it early, if anything."""
        try:
            self._shorten(random)
        except Over:
            return "; the time was over"
        except KeyboardInterrupt:
            return "; it was interrupted"
        return ""

    def _shorten(self, random: Random) -> None:
        is_shorter = bool(self.calls)
        while is_shorter:
            self.leave_out()
            while self.leave_out_one_and_change() or self.make_simpler():
                self.leave_out()
            is_shorter = self.find_shorter(random)

    def takes(self, calls: Sequence[DrawnCall]) -> bool:
        """Whether other calls break the same rule. Then they are taken, up to the one that does."""
        if time.monotonic() >= self.deadline:
            raise Over
        self.runs += 1
        if self.watch:
            self.watch(self)
        try:
            other = self.run.finding_of(calls)
        except MistakeError:  # the finding is no less true if an expression or the model is wrong of other calls
            return False
        if other is None or not self.finding.broken.is_as(other.broken):
            return False
        self.finding = other
        return True

    # ---- fewer calls

    def leave_out(self) -> None:
        """Leaves out what calls can be left out: halves, smaller pieces, single calls, and then any two."""
        size = max(1, len(self.calls) // 2)
        while size:
            first = 0
            while first < len(self.calls):
                if not self.takes(self._without(range(first, first + size))):
                    first += size
            size //= 2
        while len(self.calls) <= MOST_FOR_PAIRS and self.leave_out_two():
            pass

    def leave_out_two(self) -> bool:
        calls = self.calls
        pairs = [{one, other} for one in range(len(calls)) for other in range(one)]
        return any(self.takes(self._without(pair)) for pair in pairs)

    def _without(self, numbers: Container[int]) -> list[DrawnCall]:
        return runs.left(self.calls, [at for at in range(len(self.calls)) if at not in numbers])

    def leave_out_one_and_change(self) -> bool:
        """Whether a call could be left out if numbers of other calls, which may depend on it, are changed with it."""
        if not 1 < len(self.calls) <= MOST_FOR_PAIRS:
            return False
        return any(self.takes(calls) for at in range(len(self.calls) - 1, -1, -1) for calls in self.without(at))

    def without(self, at: int) -> Iterator[Sequence[DrawnCall]]:
        """The calls without one: with numbers that move as the storage does, and with the one's numbers added or subtracted
        elsewhere."""
        moved = self._moved_without(at)
        if moved:
            yield moved
        if len(self.calls) > MOST_FOR_SUMS:
            return
        rest = self._without([at])
        amounts = {value for value in self.calls[at].values.values() if isinstance(value, int) and value}
        for other, call in enumerate(rest):
            for name, place in call.kind.places.items():
                value = call.values[name]
                if isinstance(place, NumberSpans) and isinstance(value, int):
                    numbers = {value + sign * amount for amount in amounts for sign in (-1, 1)}
                    for number in sorted(filter(place.has, numbers)):
                        yield with_value(rest, other, name, number)

    def _moved_without(self, at: int) -> Sequence[DrawnCall] | None:
        try:
            return Moving(self.run, self.finding).without(at)
        except MistakeError:
            return None

    def find_shorter(self, random: Random) -> bool:
        """Whether one of many random sequences of fewer calls breaks the same rule. Each call is drawn after the one before it
        was run, so that its numbers may be those of the storage then."""
        longest = min(len(self.calls) - 1, LONGEST_OTHERS)
        return any(self._takes_random(random, count) for count in range(1, longest + 1) for _ in range(OTHERS))

    def _takes_random(self, random: Random, count: int) -> bool:
        if time.monotonic() >= self.deadline:
            raise Over
        calls: list[DrawnCall] = []
        try:
            broken = self.run.begin()
            while not broken and len(calls) < count:
                calls.append(runs.drawn_call(random, self.run.description.kinds, list(self.run.seen)))
                if self.run.description.time and len(calls) > 1 and random.randrange(2):
                    calls[-1].step = self.run.description.time.drawn(random)
                broken = self.run.go_on(calls[-1:])
            broken = broken or self.run.end()
        except MistakeError:
            return False
        self.runs += 1
        return self.finding.broken.is_as(broken) and self.takes(calls)

    # ---- simpler calls

    def make_simpler(self) -> bool:
        """Whether a value of a call became simpler, a word in all calls, or numbers of several calls together."""
        if self.pass_less_time():
            return True
        for at, call in enumerate(self.calls):
            for name, place in call.kind.places.items():
                for value in place.simpler(call.values[name]):
                    if self.takes(with_value(self.calls, at, name, value)):
                        return True
        words = (place for place in self.run.description.places.values() if isinstance(place, Words))
        return any(self.rename(place) for place in words) or self.lower_together()

    def pass_less_time(self) -> bool:
        """Whether a call could be in the block before it if less time passes before its own, or before the first."""
        for at, call in enumerate(self.calls):
            time, step = self.run.description.time, call.step
            if time and step is not None:
                for less in (None, *time.less(step)):
                    if self.takes([*self.calls[:at], replace(call, step=less), *self.calls[at + 1 :]]):
                        return True
        if len(self.calls) > 1 and self.calls[0].step is not None:
            first, second, *others = self.calls
            later = replace(second, step=(first.step or 0) + (second.step or 0))
            return self.takes([replace(first, step=None), later, *others])
        return False

    def rename(self, place: Words) -> bool:
        """Whether a simpler word could be put in place of another one in all calls."""
        for old in place.words:
            for new in place.simpler(old):
                calls = [replace(call, values=renamed(call, place, old, new)) for call in self.calls]
                if calls != list(self.calls) and self.takes(calls):
                    return True
        return False

    def lower_together(self) -> bool:
        if len(self.calls) > MOST_FOR_TWO_NUMBERS:
            return False
        kinds = [call.kind.places for call in self.calls]
        places = [(at, name) for at, of in enumerate(kinds) for name, place in of.items() if isinstance(place, NumberSpans)]
        return any(self._lower_two(*one, *other) for one, other in itertools.combinations(places, 2))

    def _lower_two(self, at: int, name: str, other_at: int, other_name: str) -> bool:
        place, value = self.calls[at].kind.places[name], self.calls[at].values[name]
        other_place, other = self.calls[other_at].kind.places[other_name], self.calls[other_at].values[other_name]
        assert isinstance(value, int) and isinstance(other, int) and isinstance(other_place, NumberSpans)
        for number in place.simpler(value):
            assert isinstance(number, int)
            lower = other - (value - number)
            if other_place.has(lower):
                calls = with_value(with_value(self.calls, at, name, number), other_at, other_name, lower)
                if self.takes(calls):
                    return True
        return False


def with_value(calls: Sequence[DrawnCall], at: int, name: str, value: Value) -> list[DrawnCall]:
    changed = replace(calls[at], values={**calls[at].values, name: value})
    return [*calls[:at], changed, *calls[at + 1 :]]


def renamed(call: DrawnCall, place: Place, old: Value, new: Value) -> dict[str, Value]:
    return {name: new if call.kind.places[name] is place and value == old else value for name, value in call.values.items()}
