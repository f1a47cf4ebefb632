"""Tables of gas: what each call of some lists cost, and which calls cost something else now."""

import os
import re
from collections import Counter
from collections.abc import Iterator, Sequence
from dataclasses import dataclass
from pathlib import Path
from typing import NamedTuple

from rvstm_tools.errors import UserError
from rvstm_tools.testing.testers import Tried
from rvstm_tools.texts import words

ROW = re.compile(r"\s*([0-9]{1,10})\t([^\t]+)\t([0-9]{1,9})\t([^\t]*)\t([^\t]+)")
HEAD = "# gas, list, block, input and call, with tabs between; made by rvstm-tools test --gas {name} --write"


class OfCall(NamedTuple):
    """A call: the list, as the table names it, with the variant if there is one, the number of its block, the name of its input,
    and its text. Of calls with one text in a block the second and later ones have their number after it."""

    list: str
    block: int
    input: str
    text: str

    def said(self) -> str:
        return f"{self.list}, block {self.block}{self.input and ', '}{self.input}: {self.text}"


Gas = dict[OfCall, int]


@dataclass(frozen=True)
class GasDifference:
    """A call whose gas is another one than the table's. It was or is None if one of them lacks the call."""

    of: OfCall
    was: int | None
    gas: int | None

    def said(self) -> str:
        name = self.of.said()
        if self.was is None:
            return f"{name}: {self.gas}, and not in the table"
        if self.gas is None:
            return f"{name}: {self.was} in the table, and not in the list"
        change = f", {100 * abs(self.gas - self.was) / self.was:.1f} percent" if self.was else ""
        return f"{name}: {self.was} -> {self.gas}{change} {'more' if self.gas > self.was else 'less'}"


@dataclass(frozen=True)
class GasOfInput:
    """The gas of all calls of a list that have one input."""

    list: str
    input: str
    gas: Sequence[int]

    @property
    def mean(self) -> int:
        """In gas, rounded."""
        return round(sum(self.gas) / len(self.gas))

    def said(self) -> str:
        calls = f"{len(self.gas)} call{'s' * (len(self.gas) != 1)}"
        return f"{self.list}, {self.input or 'other inputs'}: {calls}, least {min(self.gas)}, mean {self.mean}, most {max(self.gas)}"


class GasTable:
    """The file of a table. Its lists are named by their paths from its folder."""

    def __init__(self, path: Path) -> None:
        self.path = path
        self.folder = path.absolute().parent

    def read(self) -> Gas:
        gas: Gas = {}
        with open(self.path, encoding="utf-8", errors="surrogateescape") as file:
            for number, line in enumerate(file, 1):
                form = ROW.fullmatch(line.rstrip())
                if form:
                    gas[OfCall(form[2], int(form[3]), form[4], form[5])] = int(form[1])
                elif line.strip() and not line.startswith("#"):
                    what = "a row has the gas, the list, the block, the input and the call, with tabs between"
                    raise UserError(f"{self.path}, line {number}: {what}; --write makes the table again")
        return gas

    def write(self, tried: Sequence[Tried]) -> None:
        rows = [f"{gas:>8}\t{of.list}\t{of.block}\t{of.input}\t{of.text}" for of, gas in self.gas_of(tried).items()]
        lines = [HEAD.format(name=self.path.name), *rows]
        self.path.write_text("".join(f"{line}\n" for line in lines), encoding="utf-8", errors="surrogateescape")

    def gas_of(self, tried: Sequence[Tried]) -> Gas:
        return {of: gas for run in tried for of, gas in zip(self.calls_of(run), run.gas)}

    def calls_of(self, run: Tried) -> Iterator[OfCall]:
        file, counts = run.test.file, Counter[tuple[int, str]]()
        for number, call in enumerate(file.calls):
            block, text = file.place_of(number)[0], " ".join(words.words_of(file.lines[call.line - 1])).replace("\t", " ")
            counts[block, text] += 1
            again = f" ({counts[block, text]})" if counts[block, text] > 1 else ""
            yield OfCall(self.name_of(run), block, file.view.name_of_input(call.data), text + again)

    def inputs_of(self, tried: Sequence[Tried]) -> list[GasOfInput]:
        """The gas by the inputs of each list."""
        found: dict[tuple[str, str], list[int]] = {}
        for of, gas in self.gas_of(tried).items():
            found.setdefault((of.list, of.input), []).append(gas)
        return [GasOfInput(*of, gas) for of, gas in found.items()]

    def differences(self, table: Gas, tried: Sequence[Tried], within: float) -> Iterator[GasDifference]:
        """The calls that differ by more than so many percent, of lists that ran."""
        ran = [run for run in tried if not run.refusal]
        gas, names = self.gas_of(ran), {self.name_of(run) for run in ran}
        for of in sorted({*gas, *(of for of in table if of.list in names)}):
            was, now = table.get(of), gas.get(of)
            if was is None or now is None or abs(now - was) * 100 > within * was:
                yield GasDifference(of, was, now)

    def name_of(self, run: Tried) -> str:
        path = os.path.relpath(run.test.path.absolute(), self.folder)
        return f"{path}, {run.planned.variant}" if run.planned.variant else path
