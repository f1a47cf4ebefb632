"""A session as a process: `rvstm chain`, which answers requests by two pipes."""

from pathlib import Path
from typing import NamedTuple

from rvstm_tools.programs.pipes import Ended, Pipes
from rvstm_tools.sessions import answers
from rvstm_tools.sessions.answers import Answer
from rvstm_tools.sessions.requests import Request

LONGEST_FRAME = 1 << 26  # bytes, if no other limit is given


class Settings(NamedTuple):
    frame_limit: int = LONGEST_FRAME
    frame_gas: int | None = None
    digest: bool = False
    brief: bool = False
    workers: int | None = None
    store: str | None = None  # the file that it is kept in

    def words(self) -> list[str]:
        words = ["chain"]
        if self.workers:
            words += ["--workers", str(self.workers)]
        if self.frame_limit != LONGEST_FRAME:
            words += ["--frame-limit", str(self.frame_limit)]
        if self.frame_gas is not None:
            words += ["--frame-gas", str(self.frame_gas)]
        if self.store is not None:
            words += ["--store", self.store]
        return words + ["--digest"] * self.digest + ["--brief"] * self.brief


class Session(Pipes):
    def __init__(self, rvstm: str | Path, settings: Settings = Settings(), *, is_as_here: bool = False) -> None:
        super().__init__([rvstm, *settings.words()], is_as_here=is_as_here)

    def ask(self, request: Request) -> Answer | None:
        """The answer to a request, or None if the process died before it was there in whole."""
        return answers.next_answer(self.output) if self.give(request.text()) else None

    def end(self, data: bytes = b"q\n") -> Ended:
        return super().end(data)
