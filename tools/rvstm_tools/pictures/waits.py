"""A picture of conflicts: a bar for each call, as wide as its gas, and a line for each wait."""

from collections.abc import Iterable, Iterator, Mapping, Sequence
from dataclasses import dataclass
from html import escape

from rvstm_tools.texts.conflicts import Conflicts, Wait, WaitedKey, WaitingCall
from rvstm_tools.texts.keys import Key
from rvstm_tools.texts.views import View

WIDTH, MARGIN, HEAD, LEGEND_ROW = 1200, 24, 84, 22  # in pixels
MOST_HEIGHT, MOST_ROW, LEAST_ROW = 900, 28, 1.5  # in pixels, of all rows and of one
MOST_GAP, GAPS_SHARE = 36, 0.4  # between a call and those that it waits for: in pixels, and of the width in all
LETTER, ROUNDING, LEAST_WIDTH = 7.2, 0.001, 0.5  # in pixels
TEXT_ROW = 17  # pixels that a row has at least if its bars have texts
MOST_LINES = 20_000
LONGEST_NAME, NAME_END = 40, 18  # letters
COLOURS = ("#1769aa", "#2e8b3d", "#7b4bb7", "#0e8f9c", "#8c5a3c")
OTHER_LINES, BAR, BAR_EDGE, PATH, PATH_EDGE = "#9aa5b1", "#d5dee8", "#7f8c9b", "#f0a24b", "#b35c00"


@dataclass(frozen=True)
class Box:
    left: float
    right: float
    row: int


@dataclass(frozen=True)
class LegendRow:
    colour: str
    text: str


def depths_of(calls: Sequence[WaitingCall]) -> list[int]:
    """How many calls are one after another before each call."""
    depths: list[int] = []
    for call in calls:
        depths.append(max((depths[wait.writer] + 1 for wait in call.waits), default=0))
    return depths


def before(calls: Sequence[WaitingCall], call: WaitingCall) -> int | None:
    """The call with the longest path of those that a call waits for."""
    paths = ((calls[wait.writer].path, wait.writer) for wait in call.waits)
    best = max(paths, default=None)
    return None if best is None else best[1]


def longest_path(calls: Sequence[WaitingCall]) -> set[int]:
    """The places of its calls, from 0."""
    chain = set[int]()
    if not calls:
        return chain
    paths = [call.path for call in calls]
    place: int | None = paths.index(max(paths))
    while place is not None:
        chain.add(place)
        place = before(calls, calls[place])
    return chain


def boxes_of(calls: Sequence[WaitingCall], path: int) -> list[Box]:
    """Where each call is drawn: each row is as short as it can be, and a call is after one that it waits for if it can be."""
    depths = depths_of(calls)
    deepest, room = max(depths, default=0), WIDTH - 2 * MARGIN
    gap = min(MOST_GAP, GAPS_SHARE * room / max(deepest, 1))
    scale = (room - gap * deepest) / max(path, 1)
    lefts = [MARGIN + (call.path - call.gas) * scale + depth * gap for call, depth in zip(calls, depths)]
    boxes: dict[int, Box] = {}
    ends: list[float] = []
    for place in sorted(range(len(calls)), key=lambda number: (lefts[number], number)):
        left, right = lefts[place], lefts[place] + calls[place].gas * scale
        other = before(calls, calls[place])
        rows = [boxes[other].row] if other is not None else []
        row = next((row for row in [*rows, *range(len(ends))] if ends[row] <= left + ROUNDING), len(ends))
        ends[row : row + 1] = [right + min(gap, 4)]
        boxes[place] = Box(left, right, row)
    return [boxes[place] for place in range(len(calls))]


def counted(count: int, noun: str) -> str:
    return f"{count:,} {noun}" if count == 1 else f"{count:,} {noun}s"


def name_of(key: Key, view: View) -> str:
    name = view.key(key)
    return name if len(name) <= LONGEST_NAME else f"{name[:NAME_END]}..{name[-NAME_END:]}"


class Picture:
    def __init__(self, title: str, conflicts: Conflicts, view: View) -> None:
        self.title = title
        self.conflicts = conflicts
        self.view = view
        self.chain = longest_path(conflicts.calls)
        self.boxes = boxes_of(conflicts.calls, conflicts.path)
        self.rows = max((box.row + 1 for box in self.boxes), default=0)
        self.row = min(MOST_ROW, max(LEAST_ROW, MOST_HEIGHT / max(self.rows, 1)))
        self.hottest = sorted(conflicts.keys, key=lambda key: (-key.waits, key.key))
        self.colours: Mapping[Key, str] = dict(zip((key.key for key in self.hottest), COLOURS))

    def middle(self, box: Box) -> float:
        return HEAD + (box.row + 0.5) * self.row

    def curve(self, start: Box, end: Box) -> str:
        x, y, to_x, to_y = start.right, self.middle(start), end.left, self.middle(end)
        bend = (to_x - x) / 2
        return f"M{x:.1f} {y:.1f}C{x + bend:.1f} {y:.1f} {to_x - bend:.1f} {to_y:.1f} {to_x:.1f} {to_y:.1f}"

    def lines(self) -> list[str]:
        """The waits: those of keys with colours after the others, those of the longest path last and thicker."""
        plain, coloured, marked = list[str](), list[str](), list[str]()
        calls = self.conflicts.calls
        for place, call in enumerate(calls):
            for wait in call.waits:
                both = place in self.chain and wait.writer in self.chain
                is_marked = both and calls[wait.writer].path + call.gas == call.path
                line = self.line(place, wait, is_marked)
                (marked if is_marked else coloured if wait.key in self.colours else plain).append(line)
        return (plain + coloured + marked)[-MOST_LINES:]

    def line(self, place: int, wait: Wait, is_marked: bool) -> str:
        width, seen = (min(3, 1 + self.row / 8), 1.0) if is_marked else (min(1.2, 0.3 + self.row / 16), 0.6)
        title = f"call {place} waits for call {wait.writer} at {name_of(wait.key, self.view)}"
        return (
            f'<path d="{self.curve(self.boxes[wait.writer], self.boxes[place])}" fill="none" '
            f'stroke="{self.colours.get(wait.key, OTHER_LINES)}" stroke-width="{width:.2f}" '
            f'stroke-opacity="{seen:g}"><title>{escape(title)}</title></path>'
        )

    def bar(self, place: int) -> str:
        call, box, is_marked = self.conflicts.calls[place], self.boxes[place], place in self.chain
        height, width = max(self.row * 0.72, 1), max(box.right - box.left, LEAST_WIDTH)
        title = f"call {place}: {call.gas:,} gas, path {call.path:,}"
        fill, edge = (PATH, PATH_EDGE) if is_marked else (BAR, BAR_EDGE)
        labels = (f"{place}: {call.gas:,}", f"{place}")
        label = next((text for text in labels if len(text) * LETTER + 6 <= width), "")
        middle = self.middle(box)
        text = f'<text x="{box.left + 4:.1f}" y="{middle + 4:.1f}">{label}</text>'
        shown = text if label and self.row >= TEXT_ROW else ""
        return (
            f'<g><title>{escape(title)}</title>'
            f'<rect x="{box.left:.1f}" y="{middle - height / 2:.1f}" width="{width:.1f}" height="{height:.1f}" '
            f'rx="{min(3, height / 4):.1f}" fill="{fill}" stroke="{edge}" '
            f'stroke-width="{min(1, self.row / 8, width / 6):.2f}"/>{shown}</g>'
        )

    def heading(self) -> list[str]:
        conflicts = self.conflicts
        times = f"{conflicts.gas / conflicts.path:.2f}" if conflicts.path else "1.00"
        return [
            f"{self.title}: {counted(len(conflicts.calls), 'call')}, {conflicts.gas:,} gas, "
            f"{counted(conflicts.waits(), 'wait')}; the longest path has {conflicts.path:,} gas",
            f"If each call began when those that it waits for have ended, rvstm run would be {times} times as fast, by gas, with "
            "enough workers.",
            "This is no promise: threads and repeated runs take time. And no limit: a call that reads late runs beside those it "
            "waits for.",
        ]

    def legend(self, drawn: int) -> list[LegendRow]:
        rows = [LegendRow(PATH, "the calls of the longest path: each waits for the one before it")]
        rows += [LegendRow(self.colours[key.key], self.of_key(key)) for key in self.hottest if key.key in self.colours]
        others, waits = len(self.hottest) - len(self.colours), self.conflicts.waits()
        if others:
            rows.append(LegendRow(OTHER_LINES, counted(others, "other key")))
        if drawn < waits:
            rows.append(LegendRow(OTHER_LINES, f"{drawn:,} of {waits:,} waits are drawn"))
        return rows

    def of_key(self, key: WaitedKey) -> str:
        return f"{name_of(key.key, self.view)}: {counted(key.waits, 'wait')}, changed by {counted(key.writers, 'call')}"

    def svg(self) -> str:
        lines, bars = self.lines(), map(self.bar, range(len(self.boxes)))
        top = HEAD + self.rows * self.row + 16
        legend = self.legend(len(lines))
        height = top + len(legend) * LEGEND_ROW + 8
        first, *others = self.heading()
        parts = [
            f'<svg xmlns="http://www.w3.org/2000/svg" width="{WIDTH}" height="{height:.0f}" font-family="sans-serif" '
            'font-size="12" fill="#1f2933">',
            f'<rect width="{WIDTH}" height="{height:.0f}" fill="white"/>',
            f'<text x="{MARGIN}" y="26" font-size="16" font-weight="bold">{escape(first)}</text>',
            *(f'<text x="{MARGIN}" y="{46 + 17 * n}" font-size="13">{escape(text)}</text>' for n, text in enumerate(others)),
            *lines,
            *bars,
            *legend_lines(legend, top),
            "</svg>\n",
        ]
        return "\n".join(parts)


def legend_lines(rows: Iterable[LegendRow], top: float) -> Iterator[str]:
    for place, row in enumerate(rows):
        y = top + place * LEGEND_ROW
        yield (
            f'<rect x="{MARGIN}" y="{y}" width="22" height="10" rx="2" fill="{row.colour}"/>'
            f'<text x="{MARGIN + 32}" y="{y + 10}">{escape(row.text)}</text>'
        )
