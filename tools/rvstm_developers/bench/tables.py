"""Tables as pages have them, and the texts of their cells: medians, and medians of ratios within a round."""

import statistics
from collections.abc import Iterable, Sequence


def print_head(columns: Sequence[str]) -> None:
    print(f"| {' | '.join(columns)} |\n{'|---' * len(columns)}|", flush=True)


def print_row(cells: Iterable[str]) -> None:
    print(f"| {' | '.join(cells)} |", flush=True)


def print_table(columns: Sequence[str], rows: Iterable[Iterable[str]]) -> None:
    print_head(columns)
    for row in rows:
        print_row(row)


def middle(times: Iterable[float], form: str = ".1f") -> str:
    """The median of some times."""
    return format(statistics.median(times), form)


def ratio(some: Iterable[float], others: Iterable[float]) -> float:
    """The median over rounds of the ratio within a round: a virtual machine's speed changes every second."""
    return statistics.median(one / other for one, other in zip(some, others))


def of_workers(count: int) -> str:
    return f"{count} worker{'s' * (count > 1)}"
