"""What is printed of tests: a line for each run, below it the lines that are not met, and the sums at the end."""

import itertools
import json
import shlex
from collections.abc import Iterable, Iterator, Mapping, Sequence
from dataclasses import asdict, dataclass

from rvstm_tools.testing.gastables import GasDifference, GasOfInput
from rvstm_tools.testing.listed import CallPart, ListedTest
from rvstm_tools.testing.runs import Miss
from rvstm_tools.testing.testers import Tried
from rvstm_tools.texts.objects import Object


@dataclass
class Sums:
    """How many runs of tests there were, of how many calls and lines, and how many of each failed."""

    tests: int = 0
    failed: int = 0
    calls: int = 0
    expectations: int = 0
    not_met: int = 0

    def add(self, run: Tried) -> None:
        self.tests += 1
        self.failed += run.missed > 0
        self.calls += len(run.test.file.calls)
        self.expectations += run.test.count()
        self.not_met += run.missed

    def __str__(self) -> str:
        return (
            f"{counted(self.tests, 'test')}: {self.tests - self.failed} passed, {self.failed} failed; "
            f"{counted(self.calls, 'call')}, {counted(self.expectations, 'expectation')}, {self.not_met} not met"
        )


def sums_of(tried: Iterable[Tried]) -> Sums:
    sums = Sums()
    for run in tried:
        sums.add(run)
    return sums


def counted(number: int, what: str) -> str:
    """A number of things, with an `s` if there is not one."""
    return f"{number} {what}" + ("" if number == 1 else "s")


def lines_of_run(run: Tried) -> Iterator[str]:
    test, missed = run.test, run.missed
    of = f"{missed} of {test.count()} not met" if missed else f"{test.count()}"
    calls = counted(len(test.file.calls), "call")
    yield f"{'failed' if missed else 'passed'}  {run.planned.name()}: {calls}, expectations: {of}"
    yield from lines_of_failure(run)


def lines_of_failure(run: Tried) -> Iterator[str]:
    if run.refusal:
        yield f"        {run.refusal}"
    more = "" if run.planned.variant else f"rvstm-tools trace {shlex.quote(str(run.test.path))} --call "
    yield from lines_of_misses(run.test, run.misses, run.ends, more)


def lines_of_misses(test: ListedTest, misses: Iterable[Miss], ends: Mapping[int, str], more: str) -> Iterator[str]:
    """The lines of some misses, those of a part below its call or `storage`. Below them is how the call ended, if that is known, and
    the command that shows more."""
    for _, group in itertools.groupby(misses, key=lambda miss: id(miss.part)):
        of_part = list(group)
        part = of_part[0].part
        if isinstance(part, CallPart):
            line = test.file.calls[part.call].line
            yield f"    line {line}, call {part.call}: {test.shown_line(line)}"
        else:
            yield "    storage"
        for miss in of_part:
            yield from lines_of_miss(test, miss)
        if isinstance(part, CallPart) and part.call in ends:
            yield f"        ended   {ends[part.call]}"
            if more:
                yield f"        more    {more}{part.call}"


def lines_of_miss(test: ListedTest, miss: Miss) -> Iterator[str]:
    """The lines of a miss: the line that is not met, what it wants, what came, and where they part."""
    yield f"        line {miss.line}: {test.shown_line(miss.line)}"
    yield f"        wanted  {miss.difference.wanted}"
    yield f"        came    {miss.difference.came}"
    if miss.difference.place:
        yield f"        they part {miss.difference.place}"


def lines_of_gas(differences: Sequence[GasDifference], table: str, within: float) -> Iterator[str]:
    if differences:
        verb = "differs" if len(differences) == 1 else "differ"
        yield f"{counted(len(differences), 'call')} of {table} {verb} by more than {within:g} percent"
    yield from (f"    {difference.said()}" for difference in differences)


def lines_of_inputs(inputs: Sequence[GasOfInput]) -> Iterator[str]:
    if inputs:
        yield "gas by input"
    yield from (f"    {one.said()}" for one in inputs)


# ---- JSON


def json_of_run(run: Tried) -> str:
    row: Object = {"kind": "test", "list": f"{run.test.path}", "variant": run.planned.variant, "passed": not run.missed}
    row |= {"calls": len(run.test.file.calls), "expectations": run.test.count(), "seconds": round(run.seconds, 3)}
    row |= {"refusal": run.refusal, "gas": list(run.gas), "misses": [object_of_miss(run, miss) for miss in run.misses]}
    return json.dumps(row)


def object_of_miss(run: Tried, miss: Miss) -> Object:
    """A line that is not met as an object. `call` is its number, and `ended` how; both are null after `storage`."""
    call = miss.part.call if isinstance(miss.part, CallPart) else None
    difference = miss.difference
    return {
        "line": miss.line, "call": call, "ended": None if call is None else run.ends[call], "expected": run.test.shown_line(miss.line),
        "wanted": difference.wanted, "came": difference.came, "place": difference.place,
    }


def json_of_gas(difference: GasDifference) -> str:
    """A difference of gas as an object of JSON; `was` or `gas` is null if the table or the list lacks the call."""
    of = difference.of
    row: Object = {"kind": "gas", "list": of.list, "block": of.block, "input": of.input, "call": of.text}
    return json.dumps(row | {"was": difference.was, "gas": difference.gas})


def json_of_input(of: GasOfInput) -> str:
    row: Object = {"kind": "input", "list": of.list, "input": of.input, "calls": len(of.gas)}
    return json.dumps(row | {"least": min(of.gas), "mean": of.mean, "most": max(of.gas)})


def json_of_sums(sums: Sums) -> str:
    row: Object = {"kind": "sums", **asdict(sums)}
    return json.dumps(row)
