"""A session in a file that outlives its process: another process goes on from the file, and each frame runs once."""

import signal
from collections.abc import Callable, Sequence

from rvstm_tools.errors import UserError
from rvstm_tools.sessions import answers
from rvstm_tools.sessions.answers import Answer, Done, State
from rvstm_tools.sessions.processes import Session
from rvstm_tools.sessions.requests import Request, Word

LAST, STATE = Request(Word.LAST), Request(Word.STATE)


class KeptSession:
    """A session whose process may die at any time. If it died over a frame, `state` of the next one says whether the frame was
    kept: then `last` has its answer. Only a frame that was not kept is given again."""

    def __init__(self, start: Callable[[], Session], programs: Sequence[Request] = ()) -> None:
        self.start_session = start
        self.programs = programs  # the requests that each process gets first; a program that is there already may be handed in again
        self.deaths = 0
        self.begin()
        self.height = self.state.height  # the last frame that was answered here

    def begin(self) -> None:
        """Starts processes until one has the programs and says its state. One that ends by itself is an error."""
        while True:
            self.session = self.start_session()
            try:
                found = [self.session.ask(request) for request in (*self.programs, STATE)]
            except UserError:
                self.session.kill()
                raise
            state = found[-1]
            if state is not None:
                break
            self.look_how_it_ended()
        for answer in found:
            if not isinstance(answer, Done):
                self.session.kill()
                raise UserError(f"the session does not begin: {'no answer' if answer is None else answer.said}")
        assert isinstance(state, Done)
        self.state: State = answers.state_of(state.body)  # what the process that runs said when it began

    def look_how_it_ended(self) -> None:
        """Reports an end that is no kill."""
        ended = self.session.wait()
        self.session.kill()
        self.deaths += 1
        if ended.status != -signal.SIGKILL:
            raise UserError(ended.said() or f"the session ended with status {ended.status}")

    def ask(self, request: Request) -> Answer:
        """The answer to a request that may be given twice."""
        while (answer := self.session.ask(request)) is None:
            self.look_how_it_ended()
            self.begin()
        return answer

    def run(self, block: bytes) -> Answer:
        """The answer to a frame, which runs once. One that this machine could not run may be given again."""
        frame = Request(Word.FRAME, (), block)
        answer = self.session.ask(frame)
        while answer is None:
            self.look_how_it_ended()
            self.begin()
            answer = self.session.ask(LAST if self.is_kept() else frame)
        if answer.kind is not answers.Kind.FAILED:
            self.height += 1
        return answer

    def is_kept(self) -> bool:
        """Whether the file has the frame after the last one that was answered here."""
        found = self.state.height - self.height
        if found not in (0, 1):
            raise UserError(f"the session is at height {self.state.height}, and {self.height} was the last that was answered")
        return found == 1

    def end(self) -> None:
        """Ends the session. Nothing is lost if its process was killed."""
        ended = self.session.end()
        if ended.status not in (0, -signal.SIGKILL):
            raise UserError(ended.said() or f"the session ended with status {ended.status}")
