"""What is printed of a search, and its finding as a list for `rvstm-tools test`."""

import os
from collections.abc import Iterator
from pathlib import Path

from rvstm_tools.exploring.descriptions import Description
from rvstm_tools.exploring.runs import Finding
from rvstm_tools.exploring.searches import LENGTH, Limits, Search
from rvstm_tools.exploring.storages import StorageByReceipts
from rvstm_tools.texts import differences, words
from rvstm_tools.texts.blocks import Rules
from rvstm_tools.texts.keys import Key
from rvstm_tools.texts.results import ENDS_WITH_OUTPUT, Added, Change, End, Receipt, Removed
from rvstm_tools.texts.views import View

SHOWN_ENDS = 8  # of a call, in the sums


def shown_change(key: Key, change: Change, view: View) -> str:
    """What became of a key, and what that means if the list has a shape; a value that is a key is printed by words."""
    if isinstance(change, Removed):
        return "gone"
    if isinstance(change, Added):
        return f"add {change.amount}"
    if not view.shape_at(key):
        return view.names.get(Key(change.value)) or words.word_of(change.value)
    return f"{' '.join(view.words_of_value(key, change.value))}  # {view.short_value(key, change.value)}"


def expect_lines(outcome: Receipt, view: View) -> Iterator[str]:
    if outcome.end in ENDS_WITH_OUTPUT:
        yield f"expect {outcome.end} {words.word_of(outcome.output)}"
    else:
        yield "expect out-of-gas" if outcome.end is End.OUT_OF_GAS else f"expect trapped {outcome.end}"
    for key, change in outcome.changes.items():
        yield f"expect {view.word_of_key(key)} {shown_change(key, change, view)}"
    if outcome.end is End.RETURNED:
        yield "expect no other write"


def view_of(description: Description, storage: StorageByReceipts, finding: Finding) -> View:
    """The shapes of the description, and the words by which keys are called in it and in the calls."""
    for call in finding.calls:
        for word in call.kind.words_with(call.values):
            if word.startswith(("key:", "row:", "table:")):
                storage.new_key(word)
    view = description.blocks.view
    view.names |= storage.words
    return view


def list_lines(description: Description, view: View, finding: Finding, limits: Limits, folder: Path) -> Iterator[str]:
    """A finding as a list, with what came of each call. Paths are from a folder."""
    rules = description.blocks.block.rules
    length = f" --length {limits.length}" if limits.length != LENGTH else ""
    name = os.path.basename(description.path)
    yield f"# Made by rvstm-tools explore {name} --seed {limits.seed}{length}. The last call breaks"
    yield f"# {finding.broken.text}"
    yield "# Each line `expect` says what came: put there what should come, and this is a test."
    if rules is not Rules.ONE:
        yield f"rules {rules}"
    for program, path in description.programs.items():
        yield f"program {program} {os.path.relpath(path, folder)}"
    if description.dump is not None:
        yield f"storage {os.path.relpath(description.dump, folder)}"
    yield from [*description.shapes, *description.stores]
    time = description.time.first if description.time else 0
    for call, outcome in zip(finding.calls, finding.outcomes, strict=True):
        if description.time and call.step is not None:
            time = description.time.after(time, call.step)
            yield from ["", "block", " ".join(description.time.store_words(time))]
        meaning = view.input(call.kind.data(call.values))
        yield from ["", *([f"# {meaning}"] if meaning else []), call.words(), *expect_lines(outcome, view)]
    yield from [f"# {change}" for change in finding.broken.changes]


def never_returned(description: Description, search: Search) -> list[int]:
    """The lines `call` of which no call returned."""
    returned = {of.line for of in search.counts if of.end is End.RETURNED}
    return [kind.line for kind in description.kinds if kind.line not in returned]


def count_lines(description: Description, search: Search) -> Iterator[str]:
    made = f"{search.calls:,} calls in {search.seconds:.1f} s, {search.speed():,.0f} a second"
    yield f"{description.path}: {made}, seed {search.limits.seed}"
    for kind in description.kinds:
        yield f"  line {kind.line}: {differences.cut(kind.text)}"
        rows = sorted((-count, of.end, of.output) for of, count in search.counts.items() if of.line == kind.line)
        for count, end, output in rows[:SHOWN_ENDS]:
            yield f"{-count:>13,}  {end} {words.word_of(output) if output or end is End.REVERTED else ''}".rstrip()
        if rows[SHOWN_ENDS:]:
            yield f"{-sum(count for count, _, _ in rows[SHOWN_ENDS:]):>13,}  otherwise"
