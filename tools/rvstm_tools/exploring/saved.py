"""Sequences as processes hand them on, and as a folder keeps them: each call by its line and its words."""

from collections.abc import Iterable, Sequence
from dataclasses import dataclass

from rvstm_tools.errors import UserError
from rvstm_tools.exploring.descriptions import Description
from rvstm_tools.exploring.places import AnyBytes, DrawnBytes, NumberSpans, Place, Value
from rvstm_tools.exploring.runs import DrawnCall
from rvstm_tools.texts import numbers, words


@dataclass(frozen=True)
class SavedCall:
    line: int
    values: dict[str, str]
    step: int | None = None  # how much time passes before it


def saved(calls: Iterable[DrawnCall]) -> list[SavedCall]:
    return [SavedCall(call.kind.line, {name: f"{value}" for name, value in call.values.items()}, call.step) for call in calls]


def restored(description: Description, calls: Sequence[SavedCall]) -> list[DrawnCall]:
    """The calls that were kept. They are refused if the description has no such line, or no such value in a place."""
    kinds = {kind.line: kind for kind in description.kinds}
    found = []
    for call in calls:
        kind = kinds.get(call.line)
        if kind is None or kind.places.keys() != call.values.keys():
            raise UserError(f"line {call.line} of {description.path} is not the call that was kept: another folder is needed")
        found.append(DrawnCall(kind, {name: value_of(kind.places[name], word) for name, word in call.values.items()}, call.step))
    return found


def value_of(place: Place, word: str) -> Value:
    if isinstance(place, AnyBytes) and (not word or words.is_hex(word)) and place.has(len(word) // 2):
        return DrawnBytes.fromhex(word)
    if isinstance(place, NumberSpans) and numbers.is_decimal(word):
        number = numbers.at_most(word, max(span.last for span in place.spans))
        if number is not None and place.has(number):
            return number
    if not isinstance(place, AnyBytes | NumberSpans) and word in place.words:
        return word
    raise UserError(f"{word}: the description has no such value in this place: another folder is needed")
