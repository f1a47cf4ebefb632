"""The line of progress of a search on a terminal."""

import shutil
import sys
import time
from collections.abc import Callable
from pathlib import Path
from typing import TextIO

from rvstm_tools.exploring.descriptions import Description
from rvstm_tools.exploring.reached import Reached, Sample
from rvstm_tools.exploring.searches import Search
from rvstm_tools.exploring.shortening import Shorter

CLEAR = "\r\x1b[K"
EACH = 0.2  # seconds
LEAST_REPLAYING = 2.0  # seconds that replays may last after a search


class ProgressLine:
    """Writes the line again and again. Nothing is written if the output is no terminal."""

    def __init__(self, rvstm: Path, description: Description, output: TextIO | None = None) -> None:
        self.output = output or sys.stderr
        self.is_shown = self.output.isatty()
        self.description = description
        self.rvstm = rvstm
        self.reached: Reached | None = None
        self.last = -EACH

    def watch(self) -> Callable[[Search, list[Sample]], None] | None:
        """What sees a search, if that is of use: on a terminal, or if the lines of the programs are known."""
        self.reached = Reached(self.rvstm, self.description)
        return self.of_search if self.is_shown or not self.reached.lack else None

    def of_search(self, search: Search, samples: list[Sample]) -> None:
        """Replays the samples beside the search, and says how far it is."""
        assert self.reached
        self.reached.add(samples)
        if not self._is_due():
            return
        found = search.found
        best = f"{len(found.calls)} calls break {found.broken.rule}" if found else "nothing is broken"
        self._say(f"{search.made():,} calls, {search.speed():,.0f} a second, {self.reached.said()}; {best}")

    def reached_lines(self, seconds: float) -> list[str]:
        """Which lines and branches the calls of a search reached that lasted so long."""
        return [] if self.reached is None else list(self.reached.covered(max(LEAST_REPLAYING, seconds / 2)))

    def of_shorter(self, shorter: Shorter) -> None:
        if not self._is_due():
            return
        count, rule = len(shorter.calls), shorter.finding.broken.rule
        verb = "call breaks" if count == 1 else "calls break"
        self._say(f"{count} {verb} {rule}; {shorter.runs:,} runs in {shorter.spent():.0f} s")

    def end_replays(self) -> None:
        if self.reached:
            self.reached.end()

    def end(self) -> None:
        if self.is_shown:
            print(CLEAR, end="", file=self.output, flush=True)

    def _is_due(self) -> bool:
        return self.is_shown and time.monotonic() - self.last >= EACH

    def _say(self, text: str) -> None:
        self.last = time.monotonic()
        width = shutil.get_terminal_size().columns - 1
        print(f"{CLEAR}{text[:width]}", end="", file=self.output, flush=True)
