"""What a session writes for an input, beside what the model says that it has to write."""

import io
import threading
from collections.abc import Sequence
from pathlib import Path

from rvstm_developers import running
from rvstm_developers.models import inputs
from rvstm_developers.models.sessions import SessionModel
from rvstm_tools.errors import UserError
from rvstm_tools.programs.pipes import Ended
from rvstm_tools.programs.running import Program
from rvstm_tools.sessions import answers, requests
from rvstm_tools.sessions.answers import Answer, Done
from rvstm_tools.sessions.processes import Session, Settings
from rvstm_tools.sessions.requests import Request, Word

SECONDS_A_SESSION = 60
SECONDS_A_BLOCK = 60
SHOWN = 200  # bytes of an answer that a message has


def model_of(rvstm: Path, settings: Settings = Settings()) -> SessionModel:
    return SessionModel(Program(rvstm, SECONDS_A_BLOCK), settings)


def shown(answer: Answer | None) -> str:
    return "no answer" if answer is None else repr(answer.text()[:SHOWN])


def at_once(rvstm: Path, text: bytes, settings: Settings) -> Ended:
    return running.run([rvstm, *settings.words()], data=text, seconds=SECONDS_A_SESSION)


def asked(session: Session, asks: Sequence[Request]) -> bytes:
    """The answers to some requests, each read before the next one is given; fewer if the process dies."""
    found = []
    for request in asks:
        answer = session.ask(request)
        if answer is None:
            break
        found.append(answer.text())
    return b"".join(found)


def one_by_one(rvstm: Path, text: bytes, settings: Settings) -> Ended:
    """What a session writes for an input whose requests are given one by one, and at last what follows them."""
    asks = inputs.requests_of(text).requests
    rest = text[sum(len(request.text()) for request in asks) :]
    with Session(rvstm, settings) as session:
        clock = threading.Timer(SECONDS_A_SESSION, session.process.kill)
        clock.start()
        try:
            found = asked(session, asks)
            ended = session.end(rest)
            return ended._replace(output=found + ended.output)
        finally:
            clock.cancel()


def first_difference(came: Ended, text: bytes, settings: Settings, model: SessionModel) -> str | None:
    """How what a session writes differs from what it has to write; None if it does not."""
    wanted = Ended(*model.outcome(text))
    if came == wanted:
        return None
    came_lines, wanted_lines = io.BytesIO(came.output), io.BytesIO(wanted.output)
    for number, request in enumerate(inputs.requests_of(text).requests):
        one, other = answers.next_answer(came_lines), answers.next_answer(wanted_lines)
        if one != other:
            return f"{settings}: request {number}, {request.text()[:60]!r}: {shown(one)} and not {shown(other)}"
    ends = f"{came_lines.read()[:SHOWN]!r} {came[1:]} and not {wanted_lines.read()!r} {wanted[1:]}"
    return f"{settings}: after the last request: {ends}"


def difference(rvstm: Path, text: bytes, settings: Settings, *, is_at_once: bool) -> str | None:
    """How what a session writes for an input differs from what it has to write; None if it does not."""
    came = (at_once if is_at_once else one_by_one)(rvstm, text, settings)
    return first_difference(came, text, settings, model_of(rvstm, settings))


# ---- sessions that begin with the state of others


def body_of(session: Session, word: Word) -> bytes:
    answer = session.ask(Request(word))
    if not isinstance(answer, Done):
        raise UserError(f"a session answers {shown(answer)} to `{word.decode()}`")
    return answer.body


def begin_of(session: Session) -> Request:
    """The request that begins another session as this one is, but for its programs."""
    state = answers.state_of(body_of(session, Word.STATE))
    return requests.begin(state.height, state.digest, body_of(session, Word.DUMP))


def difference_after(rvstm: Path, text: bytes, settings: Settings, place: int) -> str | None:
    """How the answers differ of a session that begins with what another one is after `place` requests; None if they do not. The
    first is begun with its own state, too, so that `last` has nothing in both."""
    asks = inputs.requests_of(text).requests
    here: dict[bytes, Request] = {}
    with Session(rvstm, settings) as first, Session(rvstm, settings) as second:
        for request in asks[:place]:
            answer = first.ask(request)
            if request.word == Word.PROGRAM and isinstance(answer, Done):
                here[answer.body.strip()] = request
            elif request.word == Word.FORGET:
                here.pop(request.fields[0], None)
        begin = begin_of(first)
        if second.ask(begin) != Done():
            raise UserError("a session does not begin by what another one dumps")
        if not all(isinstance(second.ask(request), Done) for request in here.values()):
            raise UserError("a program is refused that was taken before")
        first.ask(begin)
        rest = [*asks[place:], *map(Request, (Word.STATE, Word.PROGRAMS, Word.DUMP))]
        for number, request in enumerate(rest):
            one, other = first.ask(request), second.ask(request)
            if one != other:
                return f"{settings}: begun after {place}, then {number}: {shown(one)}, {shown(other)}"
    return None
