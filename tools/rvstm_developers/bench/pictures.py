"""Pictures of lines in a field, as files of SVG."""

from collections.abc import Sequence
from pathlib import Path
from typing import NamedTuple

COLOURS = ("#1f77b4", "#d62728", "#2ca02c", "#ff7f0e", "#9467bd")
GREY, DARK_GREY = "#dddddd", "#888888"


class Point(NamedTuple):
    x: float
    y: float


class LinePicture:
    """A picture while it is made: its field is between `left` and `right`, and between `top` and `bottom`."""

    def __init__(self, width: int, height: int, left: float, right: float, bottom: float, top: float = 30) -> None:
        self.left, self.right, self.bottom, self.top = left, right, bottom, top
        size = f'width="{width}" height="{height}"'
        self.parts = [f'<svg xmlns="http://www.w3.org/2000/svg" {size} font-family="sans-serif" font-size="13">']
        self.parts.append(f'<rect {size} fill="white"/>')

    def mark_x(self, x: float, text: str) -> None:
        self.label(Point(x, self.bottom + 20), text, anchor="middle")

    def mark_y(self, y: float, text: str, colour: str = GREY) -> None:
        self.parts.append(f'<line x1="{self.left:.0f}" y1="{y:.0f}" x2="{self.right:.0f}" y2="{y:.0f}" stroke="{colour}"/>')
        self.label(Point(self.left - 8, y + 4), text, anchor="end")

    def title(self, below: str, beside: str = "") -> None:
        self.label(Point((self.left + self.right) / 2, self.bottom + 42), below, anchor="middle")
        if beside:
            place = f'x="{-(self.top + self.bottom) / 2:.0f}" y="14" text-anchor="middle" transform="rotate(-90)"'
            self.parts.append(f"<text {place}>{beside}</text>")

    def line(self, points: Sequence[Point], colour: str, *, is_broken: bool = False) -> None:
        text = " ".join(f"{point.x:.0f},{point.y:.0f}" for point in points)
        dashes = ' stroke-dasharray="5 4"' if is_broken else ""
        self.parts.append(f'<polyline points="{text}" fill="none" stroke="{colour}" stroke-width="2"{dashes}/>')
        self.parts += [f'<circle cx="{point.x:.0f}" cy="{point.y:.0f}" r="3" fill="{colour}"/>' for point in points]

    def label(self, place: Point, text: str, colour: str = "", anchor: str = "") -> None:
        more = (f' text-anchor="{anchor}"' if anchor else "") + (f' fill="{colour}"' if colour else "")
        self.parts.append(f'<text x="{place.x:.0f}" y="{place.y:.0f}"{more}>{text}</text>')

    def write(self, path: Path) -> None:
        path.write_text("\n".join([*self.parts, "</svg>", ""]), encoding="utf-8")
