"""The layers of the crates, as crates.txt has them: that no crate uses one above it, and a picture of them."""

from collections.abc import Iterator
from itertools import accumulate

from checks import sources

PICTURE = "docs/crates.svg"
LETTER = 7.8
"""How wide a letter of the picture is, in pixels: 0.6 of the size of a monospaced font."""
ROW, BOX, LEFT, TOP = 36, 24, 40, 60


def misplaced() -> Iterator[str]:
    """The libraries that crates.txt has after a crate that uses them, or at that crate."""
    order = sources.crate_names()
    for number, (crate, libraries) in enumerate(sources.libraries().items()):
        yield from (f"crates.txt: {crate} uses {library}, which does not come before it" for library in libraries if library in order[number:])


def layers() -> list[list[str]]:
    """The crates by layer, the lowest first. A crate is one layer above the highest crate that it uses."""
    height = dict[str, int]()
    for crate, libraries in sources.libraries().items():
        height[crate] = 1 + max((height.get(library, 0) for library in libraries), default=0)
    return [[crate for crate in height if height[crate] == layer] for layer in range(1, max(height.values(), default=0) + 1)]


def box(left: float, top: int, name: str) -> str:
    """A crate in the picture; one that only has tests has a broken edge."""
    width = LETTER * len(name) + 16
    dashes = ' stroke-dasharray="4 3"' if name.endswith("_tests") else ""
    frame = f'<rect x="{left:.1f}" y="{top}" width="{width:.1f}" height="{BOX}" rx="4" fill="#eef3fa" stroke="#446688"{dashes}/>'
    return f'{frame}<text x="{left + width / 2:.1f}" y="{top + 16}" text-anchor="middle">{name}</text>'


def svg() -> str:
    """The picture: a row for each layer, the highest first."""
    rows = layers()[::-1]
    ends = [list(accumulate((LETTER * len(name) + 28 for name in names), initial=float(LEFT))) for names in rows]
    size = f'width="{max(400, *(row[-1] for row in ends)):.0f}" height="{TOP + ROW * len(rows)}"'
    parts = [f'<svg xmlns="http://www.w3.org/2000/svg" {size} font-family="monospace" font-size="13">', f'<rect {size} fill="white"/>']
    parts += [f'<text x="{LEFT}" y="20">A crate uses only crates of lower layers.</text>', f'<text x="{LEFT}" y="40">A broken edge: only tests.</text>']
    for row, names in enumerate(rows):
        top = TOP + ROW * row
        parts.append(f'<text x="{LEFT - 12}" y="{top + 16}" text-anchor="end" fill="#888888">{len(rows) - row}</text>')
        parts += [box(left, top, name) for left, name in zip(ends[row], names, strict=False)]
    return "\n".join([*parts, "</svg>", ""])


def differences() -> Iterator[str]:
    """Whether the picture is another than the sources have."""
    path = sources.TOP / PICTURE
    if not path.is_file() or path.read_text(encoding="utf-8") != svg():
        yield f"{PICTURE}: docs/check --crates --svg {PICTURE} draws another picture"
