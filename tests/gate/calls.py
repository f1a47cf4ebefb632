"""Calls of the program and of the tools: how a case runs a command, and how a tool is called."""

import os
import subprocess
from collections.abc import Sequence
from dataclasses import dataclass
from pathlib import Path

from gate.runner import TOP, Differs, Run, shown
from rvstm_tools import commandline

Word = str | Path


@dataclass(frozen=True)
class EndedCommand:
    words: tuple[str, ...]
    out: str
    errors: str
    status: int

    def done(self) -> str:
        """What it printed. The case ends if its status is not 0."""
        if self.status:
            raise Differs(f"{' '.join(self.words)}: came status {self.status}, {shown((self.errors or self.out).strip()[-200:])}; wanted status 0")
        return self.out

    def refused(self, line: str, status: int = 1) -> None:
        """The case ends if it is not refused by this line, with nothing on standard output."""
        came, wanted = (self.status, self.errors, self.out), (status, f"{line}\n", "")
        if came != wanted:
            raise Differs(f"{' '.join(self.words)}: came {shown(came)}; wanted {shown(wanted)}")


def command(words: Sequence[Word], folder: Word = ".", data: str | bytes = b"", more: dict[str, str] | None = None) -> EndedCommand:
    """Runs a command in a folder. Bytes that are no text of UTF-8 are shown by their numbers."""
    given = data.encode() if isinstance(data, str) else data
    how = {**os.environ, **(more or {})}
    done = subprocess.run([str(word) for word in words], cwd=folder, input=given, capture_output=True, env=how)
    name = (Path(str(words[0])).name, *(str(word) for word in words[1:]))
    out, errors = (text.decode(errors="backslashreplace") for text in (done.stdout, done.stderr))
    return EndedCommand(name, out, errors, done.returncode)


def rvstm(run: Run, *words: Word, folder: Word = ".", data: str | bytes = b"") -> EndedCommand:
    return command([run.program, *words], folder, data)


def tool_words(name: str) -> list[str]:
    """The first words of the command line of a tool: a subcommand of the tools, or a developers' command."""
    return [str(TOP / "tools" / ("rvstm-tools" if name in commandline.NAMES else "rvstm-developers")), name]


def tool(run: Run, name: str, *words: Word, folder: Word = ".", data: str | bytes = b"") -> EndedCommand:
    return command([*tool_words(name), *words], folder, data, {"RVSTM": str(run.program)})
