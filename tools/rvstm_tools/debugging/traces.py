"""What is printed of a traced call: its storage calls, and its gas by function."""

import os
import sys
from collections.abc import Iterator, Sequence

from rvstm_tools import errors
from rvstm_tools.debugging import charges, sources
from rvstm_tools.debugging.replays import ECALL, Frame, StorageReplay
from rvstm_tools.debugging.sources import Inlined
from rvstm_tools.pictures import flames
from rvstm_tools.pictures.flames import Bar
from rvstm_tools.programs.elf import ElfFile
from rvstm_tools.texts.results import End, Receipt
from rvstm_tools.texts.views import View

MOST_OUTER, MOST_INNER = 4, 12  # functions of a chain that are shown
OUTPUT_ENDS = (End.RETURNED, End.REVERTED)


class Places:
    def __init__(self, path: str, lines: str | None, addresses: Sequence[int]) -> None:
        """Reads them from `lines`, or from the program with lines beside the program, or from the program."""
        beside = sources.lines_file_of(path)
        given = lines or (beside if os.path.isfile(beside) else path)
        file = ElfFile(given)
        if given != path:
            sources.check_is_of(file, path)
        tool = sources.address_tool() if given != path else None
        self.chains = sources.chains_of(file, addresses, tool)
        if tool:
            report(f"lines of {given}, by {os.path.basename(tool)}")
        elif given == path:
            report(f"no lines: there is no {beside}")
        else:
            report(f"no lines of {given}: {sources.NO_TOOL}")

    def chain(self, frame: Frame, pc: int) -> list[Inlined]:
        """The functions and lines of an instruction in a frame, those of its callers before them."""
        addresses = [pc]
        while frame.caller:
            addresses.append(frame.call_pc)
            frame = frame.caller
        return [inlined for address in reversed(addresses) for inlined in self.chains[address]]


def report(text: str) -> None:
    """Says on standard error where lines come from."""
    print(f"trace: {errors.printable(text)}", file=sys.stderr)


def bars_of(replay: StorageReplay, places: Places, title: str) -> Bar:
    """The gas of all instructions and storage calls by the functions that they are in."""
    root = Bar(title)
    bars: dict[Frame, Bar] = {}
    waiting, texts = [replay.entry], replay.texts()
    while waiting:
        frame = waiting.pop()
        if frame.caller:
            bar = bars[frame.caller].below(sources.names(places.chains[frame.call_pc]))
        else:
            bar = root
        bars[frame] = bar
        for pc, count in frame.counts.items():
            bar.below(sources.names(places.chains[pc])).own += count * charges.of_instruction(texts[pc])
        waiting += frame.callees.values()
    for call in replay.storage_calls:
        bars[call.frame].below([*sources.names(places.chains[call.pc]), call.name()]).own += call.cost
    if replay.last.text != ECALL:
        bars[replay.last_frame].below(sources.names(places.chains[replay.last.pc])).own += replay.last_cost
    flames.add_totals(root)
    return root


def chain_text(chain: Sequence[Inlined]) -> str:
    words = [f"{inlined.function} {sources.short_place(inlined.line)}".rstrip() for inlined in chain]
    left_out = len(words) - MOST_OUTER - MOST_INNER
    if left_out > 0:
        words[MOST_OUTER:-MOST_INNER] = [f"({left_out} more)"]
    return " > ".join(words)


def storage_lines(replay: StorageReplay, places: Places, receipt: Receipt, view: View) -> Iterator[str]:
    if not replay.storage_calls:
        yield "no storage calls"
        return
    yield "storage calls"
    yield "    step  gas before      gas  pc        call"
    for call in replay.storage_calls:
        is_last = call.moment == replay.total - 1
        end = f"; the call ends {receipt.end}" if is_last and receipt.end not in OUTPUT_ENDS else ""
        yield f"{call.moment:>8}  {call.gas:>10}  {call.cost:>7}  {call.pc:08x}  {call.text(view)}{end}"
        yield f"{'':41}{chain_text(places.chain(call.frame, call.pc))}"


def end_lines(replay: StorageReplay, places: Places, receipt: Receipt) -> Iterator[str]:
    """The instruction that ended the call, if it is not a storage call."""
    if replay.last.text != ECALL:
        chain = chain_text(places.chain(replay.last_frame, replay.last.pc))
        yield ""
        yield f"ended by {replay.last.text} at {receipt.pc:08x}: {chain}"


def sum_lines(root: Bar) -> Iterator[str]:
    yield "gas by function"
    yield "  of its own     with calls          function"
    for own, total, name in flames.sums_of(root):
        if name != root.name:
            shares = [100 * gas / max(root.total, 1) for gas in (own, total)]
            yield f"{own:>8} {shares[0]:5.1f} %  {total:>8} {shares[1]:5.1f} %  {name}"
