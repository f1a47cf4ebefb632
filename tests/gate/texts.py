"""Block files and results, as the cases write and read them. docs/formats.md has both."""

import itertools
import re
from collections.abc import Iterable, Mapping, Sequence
from dataclasses import dataclass
from pathlib import Path

from gate.runner import same
from rvstm_tools.texts import results

FORMAT_1, MOST_GAS = "rvblock 1\n", 10_000_000


def field(data: str) -> str:
    """Bytes as a field: hex, or `-` for none."""
    return data or "-"


@dataclass(frozen=True)
class GivenCall:
    """A call of a block: the number of its program, its gas and its input in hex."""

    program: int = 0
    gas: int = MOST_GAS
    data: str = ""


def block(programs: Sequence[str], calls: Iterable[GivenCall], store: Mapping[str, str] | None = None, head: str = FORMAT_1) -> str:
    lines = [f"program {number} {path}\n" for number, path in enumerate(programs)]
    lines += [f"store {key} {field(value)}\n" for key, value in sorted((store or {}).items())]
    lines += [f"call {call.program} {call.gas} {field(call.data)}\n" for call in calls]
    return head + "".join(lines)


@dataclass(frozen=True)
class CallReceipt:
    end: str
    gas: int
    output: str


def receipts(result: str) -> list[CallReceipt]:
    """The receipts of a whole result, of which each line has its form. Another text is a UserError."""
    return [CallReceipt(call.end.value, call.gas, field(call.output.hex())) for call in results.result_of(result).receipts]


def counts_of_workers(errors: str, calls: int) -> list[str]:
    """The line of each worker of what `--counts` prints. The case ends if the last line is not their sums and executions less calls."""
    *workers, sums = ([int(number) for number in re.findall(r"\d+", line)] for line in errors.splitlines())
    same(sums, [*(sum(column) for column in list(zip(*workers))[1:]), sums[2] - calls], "sums, and executions less calls")
    return errors.splitlines()[:-1]


def ends(result: str) -> list[tuple[str, str]]:
    """The end and the output of each call of a result."""
    return [(one.end, one.output) for one in receipts(result)]


def storage(result: str) -> dict[str, str]:
    words = [line.split(" ") for line in result.splitlines() if line.startswith("store ")]
    return {word[1]: word[2] for word in words}


def written(path: Path, text: str) -> Path:
    path.write_text(text, encoding="utf-8")
    return path


def mixed(workers: int, entries: int) -> str:
    """A schedule: worker numbers as a linear congruential generator gives them."""
    seeds = itertools.accumulate(range(entries), lambda seed, _: (seed * 1103515245 + 12345) % 2**32, initial=1)
    return "".join(f"{(seed >> 16) % workers}\n" for seed in itertools.islice(seeds, 1, None))
