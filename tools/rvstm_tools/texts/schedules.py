"""Schedules for `rvstm drive`: one worker number a line (docs/formats.md, "Schedule file")."""

import random
from collections.abc import Callable, Iterable, Sequence

from rvstm_tools.errors import MisuseError, UserError
from rvstm_tools.texts import numbers

MOST_WORKERS = 32
MOST_ENTRIES = 1 << 32
FIRST_SHARE = 64
LAST_SHARE = 1 << 22
NOT_DONE = "rvstm: drive NotDone 1"
FORMS = "turns, worker N or random SEED"


def entries(workers: int, length: int, form: Sequence[str]) -> list[int]:
    """The entries of a schedule of some length, by the words after the length."""
    match form:
        case [] | ["turns"]:
            return [entry % workers for entry in range(length)]
        case ["worker", word]:
            worker = numbers.at_most(word, workers - 1) if numbers.is_decimal(word) else None
            if worker is None:
                raise MisuseError(f"{word}: a worker is a number of 0 to {workers - 1}")
            return [worker] * length
        case ["random", word]:
            generator = random.Random(seed_of(word))
            return [generator.randrange(workers) for _ in range(length)]
    raise MisuseError(f"{' '.join(form)}: it is {FORMS}")


def seed_of(word: str) -> int:
    """The number of a word, which may be below 0."""
    try:
        return int(word)
    except ValueError as error:
        raise MisuseError(f"{word}: a seed is a number") from error


def text_of(lines: Iterable[int]) -> str:
    return "".join(f"{line}\n" for line in lines)


def entries_to_done(refusal: Callable[[Sequence[int]], str], workers: int) -> Sequence[int]:
    """What must follow a list until the workers are done. `refusal` is that of the list with some entries added, and empty if
    there is none."""
    added: list[int] = []
    share = FIRST_SHARE
    while (said := refusal(added)) == NOT_DONE and share <= LAST_SHARE:
        added += [worker for worker in reversed(range(workers)) for _ in range(share)]
        share *= 2
    if said:
        raise UserError(said)
    too_few, enough = -1, len(added)
    while enough - too_few > 1:  # workers that are done stay so, so halving finds the least number of entries
        middle = (too_few + enough) // 2
        if refusal(added[:middle]):
            too_few = middle
        else:
            enough = middle
    return added[:enough]
