"""Runs of the program that take bytes, and give all that they wrote."""

import subprocess
from collections.abc import Mapping, Sequence
from pathlib import Path

from rvstm_tools.errors import UserError
from rvstm_tools.programs.pipes import Ended

Word = str | Path


class TimedOutError(UserError):
    """A command did not end in its time."""


def run(
    words: Sequence[Word], folder: Path = Path(), data: bytes = b"", seconds: float | None = None,
    environment: Mapping[str, str] | None = None, user: int | None = None,
) -> Ended:
    """Runs a command in a folder, with bytes as its input, for at most so many `seconds`, by a `user`."""
    try:
        done = subprocess.run(
            words, cwd=folder, input=data, capture_output=True, timeout=seconds, check=False, env=environment,
            user=user, group=user, extra_groups=None if user is None else (),
        )
    except subprocess.TimeoutExpired as error:
        raise TimedOutError(f"`{' '.join(map(str, words))}` did not end in {seconds} seconds") from error
    return Ended(done.stdout, done.stderr, done.returncode)


def output_of(words: Sequence[Word], folder: Path = Path(), data: bytes = b"") -> bytes:
    ended = run(words, folder, data)
    if ended.status:
        raise UserError(f"`{' '.join(map(str, words))}` ended with status {ended.status}: {ended.said()}")
    return ended.output


def assembled(rvstm: Path, source: str, path: Path) -> Path:
    """Assembles a source. The program is at the path, and the source beside it."""
    text = path.with_name(f"{path.name}.s")
    text.write_text(source, encoding="utf-8")
    output_of([rvstm, "asm", text, "--out", path])
    return path
