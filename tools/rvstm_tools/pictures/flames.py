"""Flame graphs: the gas of a call by functions and what they call, as sums and as a picture."""

import zlib
from collections import defaultdict
from collections.abc import Container, Iterable, Iterator
from html import escape
from typing import NamedTuple

WIDTH, ROW, MARGIN, LETTER = 1200, 18, 10, 7.3  # in pixels
LEAST_WIDTH = 0.2  # in pixels, of a bar that is drawn
MOST_ROWS = 120
SHADES = 60
LEAST_LETTERS = 5  # of a label that is cut


class Bar:
    """A function in one chain of callers: the gas of its own instructions, and with what it calls."""

    def __init__(self, name: str) -> None:
        self.name = name
        self.callees: dict[str, Bar] = {}
        self.own = 0
        self.total = 0

    def callee(self, name: str) -> "Bar":
        if name not in self.callees:
            self.callees[name] = Bar(name)
        return self.callees[name]

    def below(self, names: Iterable[str]) -> "Bar":
        """The bar of the last of some functions, each of which calls the next."""
        bar = self
        for name in names:
            bar = bar.callee(name)
        return bar

    def most_first(self) -> list["Bar"]:
        return sorted(self.callees.values(), key=lambda bar: (-bar.total, bar.name))


class Visit(NamedTuple):
    bar: Bar
    is_end: bool


class Sum(NamedTuple):
    own: int
    total: int
    name: str


class Drawn(NamedTuple):
    bar: Bar
    left: float
    width: float
    row: int


def visits(root: Bar) -> Iterator[Visit]:
    """Each bar twice, before and after what it calls. There is no recursion, since chains can be long."""
    waiting = [Visit(root, False)]
    while waiting:
        visit = waiting.pop()
        yield visit
        if not visit.is_end:
            waiting.append(Visit(visit.bar, True))
            waiting += [Visit(callee, False) for callee in visit.bar.callees.values()]


def add_totals(root: Bar) -> None:
    for bar, is_end in visits(root):
        if is_end:
            bar.total = bar.own + sum(callee.total for callee in bar.callees.values())


def sums_of(root: Bar) -> list[Sum]:
    """The gas of each function, the most of its own first. A function that calls itself has its gas once."""
    own, total, around = defaultdict[str, int](int), defaultdict[str, int](int), defaultdict[str, int](int)
    for bar, is_end in visits(root):
        if is_end:
            around[bar.name] -= 1
            continue
        own[bar.name] += bar.own
        total[bar.name] += 0 if around[bar.name] else bar.total
        around[bar.name] += 1
    return sorted((Sum(own[name], total[name], name) for name in own), key=lambda row: (-row.own, -row.total, row.name))


def drawn_of(root: Bar) -> Iterator[Drawn]:
    scale = (WIDTH - 2 * MARGIN) / max(root.total, 1)
    waiting = [Drawn(root, MARGIN, root.total * scale, 0)]
    while waiting:
        drawn = waiting.pop()
        if drawn.width < LEAST_WIDTH or drawn.row == MOST_ROWS:
            continue
        yield drawn
        left = drawn.left
        for callee in drawn.bar.most_first():
            waiting.append(Drawn(callee, left, callee.total * scale, drawn.row + 1))
            left += callee.total * scale


def colour_of(name: str, is_blue: bool) -> str:
    shade = zlib.crc32(name.encode()) % SHADES
    return f"rgb({90 + shade},{150 + shade},230)" if is_blue else f"rgb({215 + shade // 2},{120 + shade},{60 + shade})"


def label_of(name: str, width: float) -> str:
    letters = int((width - 4) / LETTER)
    if len(name) <= letters:
        return name
    return f"{name[: letters - 2]}.." if letters >= LEAST_LETTERS else ""


def svg(root: Bar, title: str, blue: Container[str]) -> str:
    """The picture. Functions whose names are in `blue` are blue, all others are warm."""
    bars = list(drawn_of(root))
    height = (max((drawn.row for drawn in bars), default=0) + 1) * ROW + 3 * MARGIN + ROW
    lines = [
        f'<svg xmlns="http://www.w3.org/2000/svg" width="{WIDTH}" height="{height}" font-family="monospace" font-size="12">',
        f'<rect width="{WIDTH}" height="{height}" fill="white"/>',
        f'<text x="{MARGIN}" y="{MARGIN + 12}" font-size="14">{escape(title)}</text>',
    ]
    for bar, left, width, row in bars:
        top = height - MARGIN - (row + 1) * ROW
        share = f"{bar.name}: {bar.total:,} gas, {100 * bar.total / max(root.total, 1):.1f} %, {bar.own:,} of its own"
        lines.append(
            f'<g><title>{escape(share)}</title><rect x="{left:.2f}" y="{top}" width="{width:.2f}" height="{ROW - 1}" '
            f'fill="{colour_of(bar.name, bar.name in blue)}" rx="1"/>'
            f'<text x="{left + 3:.2f}" y="{top + 13}">{escape(label_of(bar.name, width))}</text></g>'
        )
    return "\n".join([*lines, "</svg>"]) + "\n"
